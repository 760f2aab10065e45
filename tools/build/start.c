/*
 * The first code of a program that baseline.py links, instead of the C library's own, which since glibc 2.34 asks for that version or
 * a later one. This asks for __libc_start_main by the version that each glibc has, and hands it what calls the constructors, since before
 * 2.34 nothing else does; later ones then call this alone. The kit's C code takes the program's arguments in a constructor.
 */
typedef void constructor(int count, char **words, char **environment);

/* By the linker, at the ends of the section .init_array. */
extern constructor *__init_array_start[] __attribute__((visibility("hidden")));
extern constructor *__init_array_end[] __attribute__((visibility("hidden")));

__attribute__((used)) static void call_constructors(int count, char **words, char **environment) {
    for (constructor **it = __init_array_start; it != __init_array_end; it++) (*it)(count, words, environment);
}

/* The arguments of __libc_start_main are main, count, words, constructors, destructors, what the loader wants called at the end, and the
   end of the stack, which is aligned to 16 bytes at a call. */
__asm__(".symver start_main, __libc_start_main@GLIBC_2.2.5\n"
        ".text\n"
        ".globl _start\n"
        ".type _start, @function\n"
        "_start:\n"
        "    xorl %ebp, %ebp\n"
        "    movq %rdx, %r9\n"
        "    popq %rsi\n"
        "    movq %rsp, %rdx\n"
        "    andq $-16, %rsp\n"
        "    pushq %rax\n"
        "    pushq %rsp\n"
        "    xorl %r8d, %r8d\n"
        "    leaq call_constructors(%rip), %rcx\n"
        "    leaq main(%rip), %rdi\n"
        "    call *start_main@GOTPCREL(%rip)\n"
        "    hlt\n"
        ".size _start, . - _start\n");
