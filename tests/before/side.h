/* One archive's side of the race; that of the earlier one has `before_` in front of its symbols. */
#include <stdbool.h>
#include <stddef.h>

/* Takes a protocol, and a message of the device's that leaves the state as it was. Says whether header, archive and text go together. */
bool side_take(const char *text, const unsigned char *message, size_t length);
bool before_side_take(const char *text, const unsigned char *message, size_t length);

/* The time of a message in ns, by steps and in batches; 0 where one was not forwarded. */
double side_steps(void);
double before_side_steps(void);
double side_batches(void);
double before_side_batches(void);
