/* Ctrl-C and other signals that ask the program to end. */
#ifndef CLI_STOP_H
#define CLI_STOP_H

#include <sys/types.h>

/* From here on such a signal ends the program, but not before the file that is being written is removed. */
void stop_begin(void);

/* The first signal only asks to stop, and goes on to the processes of this program; another one, a second later or more, ends it. What comes
 * sooner is the same request: timeout(1) sends a signal to the program and to its group. */
void stop_patiently(void);

/* In one of these processes: only what comes from the program counts. */
void stop_in_process(void);

/* The signal that came, or 0. */
int stop_asked(void);

/* The file to be removed, which must stay where it is; NULL where there is none. */
void stop_removes(const char *path);

/* Process `which` of the program, from 0; 0 where it has gone. */
void stop_passes_to(int which, pid_t pid);

/* Ends the program by the signal that came; else returns the status. */
int stop_end(int status);

#endif
