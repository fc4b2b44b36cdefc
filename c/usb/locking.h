/* The lock of all that is shared. bus.h includes this file.
 *
 * In a device's function, and in a signal's handler amid a call, this thread has the lock already, and may not wait for it. A call that
 * only reads goes on without it (`lock_to_read`, whose answer is what `unlock_read` needs); one that can answer is refused
 * (`lock_unless_asked`); and where one can't, that is told, and the program ends (`lock`). The latter two are macros for the name of the
 * call. Each call comes by them, and so they are inline for its speed: whose the lock is, is asked only where somebody has it, as glibc's
 * says by itself. Without glibc's a device's function alone is found. */
#ifndef LOCKING_H
#define LOCKING_H

#include "bus.h"

bool is_held_here(void) __attribute__((cold));
bool refuse_held(const char *function) __attribute__((cold));
void end_for_held(const char *function) __attribute__((cold));
static inline bool is_asking(void) { return __atomic_load_n(&process.is_asking, __ATOMIC_ACQUIRE); }
static inline bool is_held(void)
{
#ifdef __GLIBC__
    return __atomic_load_n(&process.lock.__data.__lock, __ATOMIC_RELAXED);
#else
    return is_asking();
#endif
}
static inline void lock_for(const char *function)
{
    if (is_held())
        end_for_held(function);
    pthread_mutex_lock(&process.lock);
}
static inline bool lock_unless_asked_for(const char *function)
{
    if (is_held() && refuse_held(function))
        return false;
    pthread_mutex_lock(&process.lock);
    return true;
}
static inline bool lock_to_read(void)
{
    if (is_held() && is_held_here())
        return false;
    pthread_mutex_lock(&process.lock);
    return true;
}
#define lock() lock_for(__func__)
#define lock_unless_asked() lock_unless_asked_for(__func__)
/* Behind a callback, or a wait: this thread hasn't the lock. */
static inline void lock_again(void) { pthread_mutex_lock(&process.lock); }
/* Behind the lock the program's log function is called, where there are lines for it. Where a call asked `is_told` at its end, and nothing
 * was, there are none: then the lock is given back by itself. */
void unlock_and_give(void) __attribute__((cold));
static inline void unlock_alone(void) { pthread_mutex_unlock(&process.lock); }
static inline void unlock_behind(bool is_told)
{
    if (is_told)
        unlock_and_give();
    else
        unlock_alone();
}
static inline void unlock(void) { unlock_behind(process.lines); }
static inline void unlock_read(bool is_locked)
{
    if (is_locked)
        unlock();
}

#endif
