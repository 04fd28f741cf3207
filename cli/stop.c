/* What a signal does: the handler keeps to calls that are safe in one. */
#include "stop.h"
#include "workers.h"
#include <signal.h>
#include <stdio.h>
#include <time.h>
#include <unistd.h>

static const int signals[] = {SIGINT, SIGTERM, SIGHUP, SIGQUIT};
enum { SIGNALS = sizeof signals / sizeof *signals };

static volatile sig_atomic_t asked, patient;
static struct timespec since; /* when it was asked; only the handler, which nothing interrupts, uses it */
static const char *volatile removed;
static volatile pid_t processes[WORKERS_MOST];

static void end_by(int signal_number) {
    struct sigaction plainly = {.sa_handler = SIG_DFL};
    sigset_t only;
    sigaction(signal_number, &plainly, NULL);
    sigemptyset(&only);
    sigaddset(&only, signal_number);
    sigprocmask(SIG_UNBLOCK, &only, NULL);
    raise(signal_number);
}

/* Whether a signal is the first, or comes with it. */
static int is_first(void) {
    struct timespec now;
    clock_gettime(CLOCK_MONOTONIC, &now);
    if (!asked) since = now;
    return now.tv_sec - since.tv_sec < 1 || (now.tv_sec - since.tv_sec == 1 && now.tv_nsec < since.tv_nsec);
}

static void on_signal(int signal_number) {
    for (int i = 0; i < WORKERS_MOST; i++)
        if (processes[i]) kill(processes[i], SIGTERM);
    if (patient && is_first()) {
        if (!asked) asked = signal_number;
        return;
    }
    if (removed) unlink(removed);
    end_by(signal_number);
}

/* What was ignored when the program was started (nohup) stays so. No call is started again: one that waits ends with EINTR. */
void stop_begin(void) {
    struct sigaction handled = {.sa_handler = on_signal}, before;
    sigemptyset(&handled.sa_mask);
    for (int i = 0; i < SIGNALS; i++) sigaddset(&handled.sa_mask, signals[i]);
    for (int i = 0; i < SIGNALS; i++)
        if (!sigaction(signals[i], NULL, &before) && before.sa_handler != SIG_IGN) sigaction(signals[i], &handled, NULL);
}

void stop_patiently(void) { patient = 1; }

void stop_in_process(void) {
    struct sigaction ignored = {.sa_handler = SIG_IGN};
    for (int i = 0; i < WORKERS_MOST; i++) processes[i] = 0;
    for (int i = 0; i < SIGNALS; i++)
        if (signals[i] != SIGTERM) sigaction(signals[i], &ignored, NULL);
}

int stop_asked(void) { return asked; }

void stop_removes(const char *path) { removed = path; }

void stop_passes_to(int which, pid_t pid) { processes[which] = pid; }

int stop_end(int status) {
    if (!asked) return status;
    fflush(NULL);
    end_by(asked);
    return status; /* where the signal is blocked */
}
