"""Every limit of the gateway. Sizes are in bytes and times in seconds where nothing else is
said."""

# Of HTTP.
HEAD_BYTES = 16 << 10
BODY_BYTES = 64 << 10
# Of one that is sent to FHIR, which may have a value set with all of its codes, or a batch.
FHIR_BODY_BYTES = 256 << 10
# Each chunk of a body costs more than its bytes.
BODY_CHUNKS = 1_000
ANSWER_BYTES = 4 << 20
# Of all answers together that clients haven't taken yet.
UNTAKEN_BYTES = 64 << 20
HEAD_SECONDS = 10.0
BODY_SECONDS = 10.0
TAKE_SECONDS = 20.0
IDLE_SECONDS = 60.0
# How long requests that have come are answered when the gateway ends, and how often it is looked
# whether they are.
END_SECONDS = 10.0
LAST_LOOK_SECONDS = 0.05
# How long what a refused client still sends is read, so that it sees the refusal.
LINGER_SECONDS = 2.0
CONNECTIONS = 512
# Connections that the system keeps until they are taken.
BACKLOG = 1024

# Of a request: how long its answer may take, waiting for `sctd` and for other requests included.
SCTD_SECONDS = 30.0
# An answer of so many bytes is compressed where its client takes that, and one of so many in a
# thread of its own.
PACKED_BYTES = 1 << 10
PACKED_APART_BYTES = 64 << 10
# How much of an answer is made at once, before other requests have their turn.
SLICE_CONCEPTS = 25
# How long /health may take, whatever hangs.
HEALTH_SECONDS = 2.0
# For how long a hub is waited for at the start, and is asked whether its store has rows of the
# edition's module.
BEGIN_SECONDS = 5.0
EDITION_SECONDS = 20.0
# When a client that is answered 503 is told to ask again.
RETRY_SECONDS = 5
# Expansions and records, which may ask thousands of questions, that go on at once.
WALKS = 3
PARAMETERS = 60
# Of a concept, each of which is asked about by itself.
CODINGS = 60
# Parts of a value set that a client defines, each of which may be a walk.
COMPOSED_PARTS = 20
# Requests of a batch.
BATCH_ENTRIES = 1_000

# Of the hub.
HUB_CONNECTIONS = 8
# Questions that are sent before the first of their replies is read.
HUB_BATCH = 256
HUB_LINE_BYTES = 4000
REPLY_LINE_BYTES = 1 << 20
# What one request may be told.
REPLIES_BYTES = 32 << 20

# Of what is remembered.
MEMORY_BYTES = 64 << 20
# The longest reply that is remembered.
REMEMBERED_BYTES = 1 << 20
SUBTREES = 64
SUBTREE_CONCEPTS = 200_000
REFSETS = 64
REFSET_CONCEPTS = 200_000
# Language reference sets of the house, each of which is a question more for a concept.
LANGUAGES = 8

# Of questions.
PAGE_CONCEPTS = 1_000
WALK_CONCEPTS = 20_000
# Terms of which a search by words reads the first so many at least, and of all at most so many.
FIRST_TERMS = 100
FILTER_TERMS = 10_000
FILTER_CHARACTERS = 200
# Members of a reference set that are read for one expansion, and reference sets that are looked at
# to see which have members.
REFSET_MEMBERS = 200_000
ASSOCIATIONS = 250_000
REFSET_CHOICE = 4_000
# Above this many codes the gateway asks DESCENDANTS once, and otherwise ANCESTORS of each.
ASKED_UPWARDS = 40
# Of an expression of ECL: its letters, parentheses in one another, and lines that it asks the hub.
EXPRESSION_LETTERS = 20_000
EXPRESSION_DEPTH = 60
EXPRESSION_LINES = 20_000
# Above this many concepts all rows of a kind are read, where that is possible, and otherwise those
# about each concept.
ASKED_ONE_BY_ONE = 5_000
# `sctd` answers at most so many rows of one WORDS or PAGE.
QUESTION_ROWS = 1_000

# Of the pages: rows of a Delta that are looked through for one, changed concepts that it shows, and
# questions that it may ask.
DELTA_ROWS = 200_000
CHANGED_CONCEPTS = 500
CHANGES_QUESTIONS = 20_000
# Records of a list, characters of one, the list as bytes, as what it is posted, and the questions.
RECORDS = 1_000
RECORD_CHARACTERS = 5_000
RECORDS_BYTES = 256 << 10
RECORDS_BODY_BYTES = 1 << 20
RECORDS_QUESTIONS = 20_000
# Concepts on a page of a search, and those that are suggested while one types.
RESULT_CONCEPTS = 100
SUGGESTED_CONCEPTS = 20
# Children that a record names on a day, and concepts whose place was taken.
TOLD_CONCEPTS = 50
# Reference sets that a record tells of, and members of each.
TOLD_REFSETS = 100
TOLD_MEMBERS = 20
REPLACEMENT_STEPS = 30
