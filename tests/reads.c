/*
 * Reads of the same buffers at the same time: the buffers lie on pages that
 * nobody may write, so that a read which wrote one byte would end the program,
 * and several threads read every register and some needs and must all get the
 * same.
 */
#define _DEFAULT_SOURCE
#include <cbqri.h>

#include <pthread.h>
#include <stdio.h>
#include <stdlib.h>
#include <sys/mman.h>

enum { NCBLKS = 40, NR = 64, NA = 8, NM = 64, U = 16, THREADS = 4, ROUNDS = 500 };
enum { PLACES = CBQRI_SPAN / 4 + 1, SIZES = 3 }; /* the last place and the last size are refused */
enum { NUMBERS = 6, NEED = 4444 };

static const uint64_t sizes[SIZES] = {4, 8, 2};
static struct cbqri_bw bw;
static struct cbqri_cc cc;
static uint64_t wanted[PLACES][SIZES][NUMBERS];

static void must(int holds, const char *what)
{
    if (holds)
        return;
    printf("%s\n", what);
    exit(1);
}

/* Of both controllers a register, and the need of an RCID, of which the last is refused. */
static void read_all(int place, int size, uint64_t got[NUMBERS])
{
    uint64_t rcid = place == PLACES - 1 ? NR : (uint64_t)place;
    got[0] = cbqri_bw_read(&bw, sizes[size], 4 * (uint64_t)place, &got[1]);
    got[2] = cbqri_cc_read(&cc, sizes[size], 4 * (uint64_t)place, &got[3]);
    got[4] = cbqri_bw_need(&bw, rcid, &got[5]);
}

static void *reader(void *unused)
{
    uint64_t got[NUMBERS];
    for (int i = 0; i < ROUNDS; i++)
        for (int place = 0; place < PLACES; place++)
            for (int size = 0; size < SIZES; size++) {
                read_all(place, size, got);
                for (int k = 0; k < NUMBERS; k++)
                    must(got[k] == wanted[place][size][k], "a read got something else");
            }
    return unused;
}

static uint8_t *pages(size_t length)
{
    uint8_t *at = mmap(NULL, length, PROT_READ | PROT_WRITE, MAP_PRIVATE | MAP_ANONYMOUS, -1, 0);
    must(at != MAP_FAILED, "mmap");
    return at;
}

/* Registers that are not 0, on pages that are then read-only. */
static void set_up(void)
{
    const struct cbqri_bw_setup bw_setup = {1000, 900, NR, NA, NM, 64, 24};
    const struct cbqri_cc_setup cc_setup = {NCBLKS, NR, NA, NM, 24, U};
    const size_t cc_len = CBQRI_CC_LEN(NCBLKS, NR, NA, NM, U);
    uint64_t reserved, pool, allowed, refused;
    bw = cbqri_bw_view(pages(CBQRI_BW_LEN(NR, NA, NM)), NR, NA, NM);
    cc = cbqri_cc_view(pages(cc_len), NCBLKS, NR, NA, NM, U);
    refused = cbqri_bw_reset(&bw, &bw_setup) | cbqri_cc_reset(&cc, &cc_setup);
    refused |= cbqri_bw_write(&bw, 8, CBQRI_MON_CTL, cbqri_mon_ctl(CBQRI_CONFIG_EVENT, 0, 3, 1, 0));
    refused |= cbqri_bw_request(&bw, 0, 3, 0, 0, 1234, &reserved, &pool);
    refused |= cbqri_bw_wait(&bw, 3, 3, 0, 0, NEED);
    refused |= cbqri_bw_write(&bw, 8, CBQRI_MON_CTL, cbqri_mon_ctl(CBQRI_READ_COUNTER, 0, 3, 0, 0));
    refused |= cbqri_bw_write(&bw, 8, CBQRI_ALLOC_CTL, cbqri_alloc_ctl(CBQRI_READ_LIMIT, 0, 0));
    refused |= cbqri_cc_fill(&cc, 0, 3, 1, NCBLKS * U - 1, &allowed);
    refused |= cbqri_cc_write(&cc, 8, CBQRI_ALLOC_CTL, cbqri_alloc_ctl(CBQRI_READ_LIMIT, 1, 0));
    must(refused == 0 && reserved == 1234 && pool == 0 && allowed == 1, "the set-up");
    must(mprotect(bw.record, CBQRI_BW_LEN(NR, NA, NM), PROT_READ) == 0 &&
             mprotect(cc.record, cc_len, PROT_READ) == 0, "mprotect");
}

int main(void)
{
    pthread_t threads[THREADS];
    set_up();
    for (int place = 0; place < PLACES; place++)
        for (int size = 0; size < SIZES; size++)
            read_all(place, size, wanted[place][size]);
    must(wanted[CBQRI_MON_CTR_VAL / 4][1][1] == 1234, "the counter");
    must(wanted[3][0][5] == NEED && wanted[2][0][5] == 0, "a need");
    must(wanted[PLACES - 1][0][4] == CBQRI_REFUSED_IDENTIFIER, "the need of an unknown RCID");
    for (int i = 0; i < THREADS; i++)
        must(pthread_create(&threads[i], NULL, reader, NULL) == 0, "pthread_create");
    for (int i = 0; i < THREADS; i++)
        must(pthread_join(threads[i], NULL) == 0, "pthread_join");
    return 0;
}
