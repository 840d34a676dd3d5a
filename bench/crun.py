#!/usr/bin/env python3
"""Measures the command crun as it is built: statements a second of a plain loop, a chain of blocks that
is released, calls and braces that nest on a small stack, and the memory that a text of the largest size
takes. Times are those of its one processor, so that other work on the machine counts little. A word names another
program to measure than the one that is built here. Prints one line for each, and judges none."""
import os
import resource
import subprocess
import sys
import tempfile

TOP = os.path.dirname(os.path.dirname(os.path.abspath(__file__)))
PROGRAM = sys.argv[1] if len(sys.argv) > 1 else os.path.join(TOP, 'crates', 'rpy', 'out', 'rpy')
HEAD = '/* C-sub 1 */\n#include "rpy_prim.h"\n'
LARGEST = 64 << 20
SMALL_STACK = 256 << 10

LOOP = HEAD + '''struct s0 {
    Signed a0;
};
static Signed f0(void);
/* loop */
static Signed f0(void)
{
    struct s0 *v0;
    Signed v1;
    Bool v2;
b0:
    v0 = (struct s0 *)RPY_NEW(struct s0);
    ((struct s0 *)v0)->a0 = 0L;
    goto b1;
b1:
    v1 = ((struct s0 *)v0)->a0;
    v1 = RPY_ADD(v1, 1L);
    ((struct s0 *)v0)->a0 = v1;
    v2 = RPY_LT(v1, %dL);
    if (v2) goto b1; else goto b2;
b2:
    RPY_FREE(v0);
    return 0L;
}
'''

CHAIN = HEAD + '''struct s0 {
    struct s0 *a0;
};
static void f0(struct s0 *v0);
static Signed f1(void);
/* release */
static void f0(struct s0 *v0)
{
    Bool v1;
    struct s0 *v2;
b0:
    v1 = RPY_PEQ(v0, NULL);
    if (v1) goto b1; else goto b2;
b1:
    return;
b2:
    v2 = ((struct s0 *)v0)->a0;
    f0(v2);
    RPY_FREE(v0);
    return;
}
/* chain */
static Signed f1(void)
{
    Signed v0;
    Bool v1;
    struct s0 *v2;
    struct s0 *v3;
b0:
    v0 = 0L;
    v2 = NULL;
    goto b1;
b1:
    v1 = RPY_LT(v0, %dL);
    if (v1) goto b2; else goto b3;
b2:
    v3 = (struct s0 *)RPY_NEW(struct s0);
    ((struct s0 *)v3)->a0 = v2;
    v2 = v3;
    v0 = RPY_ADD(v0, 1L);
    goto b1;
b3:
    f0(v2);
    return 0L;
}
'''


DEEP = HEAD + '''static Signed f0(Signed v0);
static Signed f1(void);
/* down */
static Signed f0(Signed v0)
{
    Bool v1;
    Signed v2;
b0:
    v1 = RPY_EQ(v0, 0L);
    if (v1) goto b1; else goto b2;
b1:
    return 0L;
b2:
    v2 = RPY_SUB(v0, 1L);
    v2 = f0(v2);
    return v2;
}
/* deep */
static Signed f1(void)
{
    Signed v0;
b0:
    v0 = f0(%dL);
    return v0;
}
'''


def nested_text(depth):
    """A static with so many open braces: each struct begins with the one before it."""
    structs = ['struct s0 {\n    Signed a0;\n};\n']
    structs += ['struct s%d {\n    struct s%d a0;\n};\n' % (i, i - 1) for i in range(1, depth)]
    static = 'static struct s%d g0 = %s0L%s;\n' % (depth - 1, '{ ' * depth, ' }' * depth)
    main = 'static Signed f0(void);\n%s/* nested */\nstatic Signed f0(void)\n{\nb0:\n    return 0L;\n}\n'
    return HEAD + ''.join(structs) + main % static


def long_text():
    start = HEAD + 'static Signed f0(void);\n/* long */\nstatic Signed f0(void)\n{\n    Signed v0;\nb0:\n    v0 = 0L;\n'
    line = '    v0 = RPY_ADD(v0, 1L);\n'
    end = '    return 0L;\n}\n'
    return start + line * ((LARGEST - len(start) - len(end)) // len(line)) + end


def on_small_stack():
    resource.setrlimit(resource.RLIMIT_STACK, (SMALL_STACK, SMALL_STACK))


def run(text, expected, before=None):
    """The seconds of a processor and the most bytes of memory that the run of a text takes."""
    with tempfile.NamedTemporaryFile('w', suffix='.c') as f:
        f.write(text)
        f.flush()
        child = subprocess.Popen([PROGRAM, 'crun', f.name], stderr=subprocess.PIPE, preexec_fn=before)
        said = child.stderr.read()
        _, status, used = os.wait4(child.pid, 0)
    if said != expected or status != 0:
        sys.exit('status %d, %r' % (status >> 8, said))
    return used.ru_utime + used.ru_stime, used.ru_maxrss * 1024


def main():
    if not os.path.exists(PROGRAM):
        sys.exit('the program is not built')
    rounds = 10 * 1000 * 1000
    seconds, _ = run(LOOP % rounds, b'returned 0\n')
    print('loop: %.1f million statements a second' % (5 * rounds / seconds / 1e6))
    blocks = 1000 * 1000
    seconds, peak = run(CHAIN % blocks, b'returned 0\n')
    print('chain of %d blocks: %.1f s, %d MB' % (blocks, seconds, peak >> 20))
    seconds, peak = run(DEEP % blocks, b'returned 0\n', on_small_stack)
    print('%d calls in one another on a stack of %d KiB: %.1f s, %d MB' % (blocks, SMALL_STACK >> 10, seconds, peak >> 20))
    depth = 1900
    seconds, _ = run(nested_text(depth), b'returned 0\n', on_small_stack)
    print('%d braces in one another on that stack: %.1f s' % (depth, seconds))
    text = long_text()
    seconds, peak = run(text, b'returned 0\n')
    print('text of %d bytes: %.1f s, %.1f bytes of memory a byte' % (len(text), seconds, peak / len(text)))


if __name__ == '__main__':
    main()
