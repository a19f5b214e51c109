# What the commands of figures.txt are made of, at the top of the repository. Each prints a number.

edits() { ls crates/*/must-fail/*.edit crates/*/edits/*.edit | wc -l; }
tests() { grep -rhE '^ *#\[test\]' --include=*.rt crates/*/src | wc -l; }
cases() { grep -rhE '^case ' --exclude=wrong.txt crates/*/data/cases bench/cases/*.txt | wc -l; }
crates() { ls -d crates/*/ | wc -l; }
# The definitions that the contract of an answer rests on.
reach() {
    python3 bench/rattle/count_reach.py line_server::answer | sed -nE 's/.*: ([0-9]+) words.*/\1/p'
}
# The calls that always_refused.py plants.
planted_calls() { grep -vc '^#' bench/faults/refused_calls.txt; }
# All functions of src/, those of traits and the tests' helpers too, less the tests themselves.
functions() {
    echo $(($(grep -rhE '^ *(pub(\([a-z]+\))? )?fn ' --include=*.rt crates/*/src | wc -l) - $(tests)))
}

# The number that stands behind a text in a file of crates/.
number_in() { sed -nE "s/.*$2([0-9_]+).*/\1/p" "crates/$1" | head -n 1 | tr -d _; }
# A sum of what another command prints, as `* 2`, or nothing as that one.
reckoned() {
    local n
    n=$($1) && echo $((${n:?} $2))
}

# Where the cases of crashes, of damage and of layout 1 stand.
crashes=store_cases/data/cases/crashes.txt
damage=store_cases/data/cases/damage.txt
old=store_cases/data/cases/old.txt

# How many failures the first case has that asks this.
failures_in() { number_in $crashes "^fails $1 -> "; }
breaks() { failures_in "change script shut held"; }
all_breaks() { failures_in "all script-and-questions shut held"; }
reads() { failures_in "read script-and-questions shut held"; }
openings() { failures_in "read - shut held"; }
all_openings() { failures_in "all - shut held"; }
# The last crash of the script is behind all its calls, and behind the one of an opening.
script_calls() {
    local n
    n=$(sed -nE 's/^= [0-9]+ to ([0-9]+): 3, yes, none, done, yes$/\1/p' crates/$crashes | head -n 1)
    echo $((${n:?} - 1))
}
images() { awk '/^byte / {s += $NF} END {print s}' crates/$damage; }
lengths() { sed -nE 's/^= ([0-9]+): 1$/\1/p' crates/$damage; }
# The last crash that is counted where nothing is left of what wasn't synced, and crash 0.
old_crashes() {
    awk '/^crashes lost / {asked = 1; next}
         asked && /^= / {n = $2 ~ /:$/ ? $2 : $4; sub(":", "", n); last = n; next}
         asked {s += last + 1; asked = 0} END {print s}' crates/$old
}
fields() { sed -n '/^case a field that is changed/,/^asked/p' crates/$damage | grep -c '^with '; }
bytes_of_slots() {
    sed -n '/^case each byte of the slots/,/^asked/p' crates/$damage | sed -nE 's/^keep -> //p'
}
