#ifndef MESSAGE_H
#define MESSAGE_H

/* What the application says. */
extern const char *const message;

/* How often it says so. */
unsigned char repetitions(void);

#endif
