/* The little of C's library that driver.c and stack.c use, so that both can run in node. What is printed goes to `say`. */
#include <stdarg.h>
#include <stdint.h>
#include <stdio.h>
#include <string.h>
#include <ucontext.h>

__attribute__((import_name("say"))) void say(const char *text, size_t len);

static void say_number(unsigned long number, unsigned base, int width) {
    char text[32];
    size_t at = sizeof text;
    do {
        text[--at] = "0123456789abcdef"[number % base];
        number /= base;
    } while (number > 0 || (int)(sizeof text - at) < width);
    say(text + at, sizeof text - at);
}

/* %s, %u, %lu and %08x. */
int printf(const char *form, ...) {
    va_list values;
    va_start(values, form);
    for (; *form != 0; form++) {
        if (*form != '%') {
            say(form, 1);
            continue;
        }
        form++;
        if (*form == 's') {
            const char *text = va_arg(values, const char *);
            say(text, __builtin_strlen(text));
        } else if (*form == '0') {
            form += 2;
            say_number(va_arg(values, unsigned), 16, 8);
        } else if (*form == 'l') {
            form++;
            say_number(va_arg(values, unsigned long), 10, 0);
        } else {
            say_number(va_arg(values, unsigned), 10, 0);
        }
    }
    va_end(values);
    return 0;
}

size_t strlen(const char *text) {
    size_t len = 0;
    while (text[len] != 0) {
        len++;
    }
    return len;
}

void *memchr(const void *from, int byte, size_t len) {
    for (const uint8_t *at = from; len > 0; at++, len--) {
        if (*at == byte) {
            return (void *)at;
        }
    }
    return NULL;
}

/* on_stack (below) calls a function with the stack's pointer set to a place, and sets it back. */
void on_stack(void *top, void (*run)(void));
__asm__(".functype on_stack (i32, i32) -> ()\n"
        ".globaltype __stack_pointer, i32\n"
        ".section .text.on_stack,\"\",@\n"
        ".globl on_stack\n"
        ".type on_stack,@function\n"
        "on_stack:\n"
        ".functype on_stack (i32, i32) -> ()\n"
        ".local i32\n"
        "global.get __stack_pointer\n"
        "local.set 2\n"
        "local.get 0\n"
        "global.set __stack_pointer\n"
        "local.get 1\n"
        "call_indirect () -> ()\n"
        "local.get 2\n"
        "global.set __stack_pointer\n"
        "end_function\n");

int getcontext(ucontext_t *to) {
    to->run = NULL;
    return 0;
}
int swapcontext(ucontext_t *from, ucontext_t *to) {
    (void)from;
    on_stack((char *)to->uc_stack.ss_sp + to->uc_stack.ss_size, to->run);
    return 0;
}
