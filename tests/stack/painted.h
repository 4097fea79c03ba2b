/* What painted.S measures, for it and for stack.c. */
#ifndef PAINTED_H
#define PAINTED_H

#define PAINTED 65536 /* bytes below the caller: what went as far as that may have gone farther */
#define PAINT 0xa5
#define MARK_MOST 16 /* where `most` stands */

#ifndef __ASSEMBLER__
#include <stddef.h>

struct mark {
    void (*function)(void);
    const char *name;
    size_t most; /* the deepest of its calls since this was last 0 */
};
extern struct mark painted_marks[], painted_end[], *painted_last;

#endif
#endif
