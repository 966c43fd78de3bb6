/* Times AMD ordering with LDL symbolic analysis, both of SuiteSparse.

       amd SHEET...

   prints a line for each sheet: its name, the number of nodes, the number of links, the entries of L with the diagonal,
   and the nanoseconds of order and analysis together. */

#include <stddef.h>
#include <stdint.h>
#include <stdio.h>
#include <stdlib.h>
#include <string.h>

#include <suitesparse/SuiteSparse_config.h>
#include <suitesparse/amd.h>
#include <suitesparse/ldl.h>

#include "measure.h"

#define MOST_NODES 512
#define MOST_LINKS 4096
#define KIND_OF_LINK 2
#define POOL_BYTES (1 << 20)

/* The symmetric pattern in compressed columns: both halves without the diagonal, rows ascending. */
typedef struct {
    int n;
    int links;
    int starts[MOST_NODES + 1];
    int rows[2 * MOST_LINKS];
} Pattern;

typedef struct {
    Pattern pattern;
    int order[MOST_NODES];
    int position[MOST_NODES];
    int parents[MOST_NODES];
    int counts[MOST_NODES];
    int flags[MOST_NODES];
    int column_starts[MOST_NODES + 1];
} Analysis;

/* AMD asks for its work space at each call. It is given this pool, so that the clock sees no allocation. */
static _Alignas(max_align_t) uint8_t pool[POOL_BYTES];
static size_t pool_used;

static void *take(size_t size)
{
    size_t rounded = (size + sizeof(max_align_t) - 1) / sizeof(max_align_t) * sizeof(max_align_t);
    if (rounded > POOL_BYTES - pool_used)
        return NULL;
    void *taken = pool + pool_used;
    pool_used += rounded;
    return taken;
}

static void give_back(void *taken)
{
    (void)taken;
}

static uint32_t word_at(const File *sheet, uint64_t place)
{
    const uint8_t *bytes = sheet->bytes + 4 * place;
    return bytes[0] | (uint32_t)bytes[1] << 8 | (uint32_t)bytes[2] << 16 | (uint32_t)bytes[3] << 24;
}

/* Trusts that the sheet is whole. */
static void read_pattern(const File *sheet, Pattern *pattern)
{
    static uint8_t linked[MOST_NODES][MOST_NODES];
    memset(linked, 0, sizeof linked);
    pattern->n = (int)(word_at(sheet, 0) & 1023);
    pattern->links = 0;
    for (uint64_t place = 1; 4 * place < sheet->length; place++) {
        uint32_t word = word_at(sheet, place);
        if (word >> 28 != KIND_OF_LINK)
            break;
        uint32_t first = (word >> 10 & 1023) - 1;
        uint32_t second = (word & 1023) - 1;
        linked[first][second] = linked[second][first] = 1;
        pattern->links++;
    }
    int entries = 0;
    for (int column = 0; column < pattern->n; column++) {
        pattern->starts[column] = entries;
        for (int row = 0; row < pattern->n; row++)
            if (linked[column][row])
                pattern->rows[entries++] = row;
    }
    pattern->starts[pattern->n] = entries;
}

static void analyse(void *context, uint64_t repetitions)
{
    Analysis *a = context;
    Pattern *p = &a->pattern;
    for (uint64_t repetition = 0; repetition < repetitions; repetition++) {
        pool_used = 0;
        /* Any other answer than AMD_OK would mean that AMD first had to mend the pattern. */
        if (amd_order(p->n, p->starts, p->rows, a->order, NULL, NULL) != AMD_OK) {
            fputs("amd_order refuses the pattern\n", stderr);
            exit(1);
        }
        ldl_symbolic(p->n, p->starts, p->rows, a->column_starts, a->parents, a->counts, a->flags, a->order,
                     a->position);
    }
}

int main(int count, char **arguments)
{
    static File sheet;
    static Analysis analysis;
    SuiteSparse_config.malloc_func = take;
    SuiteSparse_config.free_func = give_back;
    for (int i = 1; i < count; i++) {
        read_file(arguments[i], &sheet);
        Pattern *pattern = &analysis.pattern;
        read_pattern(&sheet, pattern);
        double ns = best_ns(analyse, &analysis);
        int entries = analysis.column_starts[pattern->n] + pattern->n;
        printf("%s %d %d %d %.0f\n", arguments[i], pattern->n, pattern->links, entries, ns);
    }
    return 0;
}
