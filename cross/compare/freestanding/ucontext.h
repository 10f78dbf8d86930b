/* A context is a function and the stack that it runs on. */
#include <stddef.h>
typedef struct ucontext {
    struct {
        void *ss_sp;
        size_t ss_size;
    } uc_stack;
    struct ucontext *uc_link;
    void (*run)(void);
} ucontext_t;
int getcontext(ucontext_t *to);
int swapcontext(ucontext_t *from, ucontext_t *to);
#define makecontext(to, function, arguments) ((to)->run = (function))
