/* The exit statuses that all commands share. */
#ifndef STATUS_H
#define STATUS_H

enum { JUDGED = 0, REFUSED = 1, UNUSABLE = 2 };

#endif
