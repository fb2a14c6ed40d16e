/* Counting of checks. A group's checks are told in one line, a check that fails in a line of its own. */
#ifndef CHECK_H
#define CHECK_H

/* Ends the group before it and begins one. */
void group(const char *words);
/* Counts a check; where it does not hold, prints why, as printf does. Gives back whether it holds. */
int check(int holds, const char *why, ...);
/* Ends the last group and prints the last line. 1 where a check failed, or none was made; else 0. */
int ended(void);

#endif
