/* Batches of matrices for FLINT: they are made and filled outside the clock, so that only the Howell form is timed. */
#include <flint/nmod_mat.h>
#include <stdint.h>
#include <stdlib.h>

struct flint_batch {
    size_t count;
    nmod_mat_t *matrices;
};

struct flint_batch *flint_batch_new(size_t count, size_t rows, size_t columns, uint64_t modulus)
{
    struct flint_batch *batch = malloc(sizeof *batch);
    batch->count = count;
    batch->matrices = malloc(count * sizeof *batch->matrices);
    for (size_t i = 0; i < count; i++)
        nmod_mat_init(batch->matrices[i], rows, columns, modulus);
    return batch;
}

void flint_batch_set(struct flint_batch *batch, size_t i, const uint32_t *numbers)
{
    nmod_mat_struct *m = batch->matrices[i];
    for (slong r = 0; r < m->r; r++)
        for (slong c = 0; c < m->c; c++)
            nmod_mat_entry(m, r, c) = *numbers++;
}

void flint_batch_get(const struct flint_batch *batch, size_t i, uint32_t *numbers)
{
    const nmod_mat_struct *m = batch->matrices[i];
    for (slong r = 0; r < m->r; r++)
        for (slong c = 0; c < m->c; c++)
            *numbers++ = (uint32_t)nmod_mat_entry(m, r, c);
}

/* The Howell form of every matrix, in place. The sum of the ranks is returned so that no call can be left out. */
uint64_t flint_batch_howell(struct flint_batch *batch)
{
    uint64_t ranks = 0;
    for (size_t i = 0; i < batch->count; i++)
        ranks += (uint64_t)nmod_mat_howell_form(batch->matrices[i]);
    return ranks;
}

void flint_batch_free(struct flint_batch *batch)
{
    for (size_t i = 0; i < batch->count; i++)
        nmod_mat_clear(batch->matrices[i]);
    free(batch->matrices);
    free(batch);
}
