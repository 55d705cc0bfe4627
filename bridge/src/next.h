/* The C library's own function of a name that is taken over. */
#ifndef NEXT_H
#define NEXT_H

#include <dlfcn.h>

/* Looked up at each call where it is not known yet; two threads that look at once find the same. */
#define NEXT(name)                                                                                                    \
    ({                                                                                                                \
        static void *_Atomic found_##name;                                                                            \
        if (!found_##name)                                                                                            \
            found_##name = dlsym(RTLD_NEXT, #name);                                                                   \
        (__typeof__(&name))(void *)found_##name;                                                                      \
    })

#endif
