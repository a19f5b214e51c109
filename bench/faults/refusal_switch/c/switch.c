/* The byte behind this text in a built program is the number of the call that is refused; 0 is none.
   It stands in C, since a constant of Rattle is folded into the code. */
static const volatile unsigned char mark[] = "THE-CALL-THAT-IS-REFUSED:\0";
unsigned char call_that_is_refused(void) { return mark[sizeof mark - 2]; }
