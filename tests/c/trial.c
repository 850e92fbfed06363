/* Trial jobs written, and reciprocals. */
#include "checks.h"

/* What TRIAL_JOB is written from, each with a byte more. */
static const uint8_t HEADER[] = {0x13, 0x80, 0x24, 0};
static const uint8_t COEFFICIENTS[] = {0, 1, 0, 1, 0, 5, 0, 1, 0};

/* A call of the example with other lengths, another number of spoiled rows, or one byte changed. */
static struct hanthuvelo_written trial(size_t header_length, size_t coefficients_length, uint32_t spoiled,
                                       uint8_t *area, size_t area_length)
{
    return hanthuvelo_trial(HEADER, header_length, COEFFICIENTS, coefficients_length, 14, spoiled, area, area_length);
}

static struct hanthuvelo_written changed(size_t header_place, uint8_t header_byte, size_t place, uint8_t byte,
                                         uint8_t *area)
{
    uint8_t header[3], coefficients[8];
    memcpy(header, HEADER, sizeof header);
    memcpy(coefficients, COEFFICIENTS, sizeof coefficients);
    header[header_place] = header_byte;
    coefficients[place] = byte;
    return hanthuvelo_trial(header, 3, coefficients, 8, 14, 2, area, HANTHUVELO_JOB_MAX);
}

int check_trial(void)
{
    uint8_t area[HANTHUVELO_JOB_MAX], answer[HANTHUVELO_ANSWER_MAX];
    memset(area, FILLING, sizeof area);

    EXPECT(refused(hanthuvelo_trial(NULL, 0, NULL, 0, 0, 0, NULL, 0), HANTHUVELO_TOO_SHORT));
    EXPECT(refused(trial(2, 8, 2, area, sizeof area), HANTHUVELO_TOO_SHORT));
    EXPECT(refused(changed(2, 0x25, 1, 1, area), HANTHUVELO_TOO_SHORT));
    EXPECT(refused(trial(4, 8, 2, area, sizeof area), HANTHUVELO_BYTE_COUNT));
    EXPECT(refused(trial(3, 9, 2, area, sizeof area), HANTHUVELO_BYTE_COUNT));
    EXPECT(refused(changed(0, 0x12, 1, 1, area), HANTHUVELO_TOO_FEW_ROWS));
    EXPECT(refused(changed(0, 0x14, 1, 1, area), HANTHUVELO_TOO_MANY_ROWS));
    EXPECT(refused(trial(3, 8, 8, area, sizeof area), HANTHUVELO_TOO_MANY_ROWS));
    EXPECT(refused(changed(2, 0x24, 7, 7, area), HANTHUVELO_OUT_OF_RANGE));
    EXPECT(refused(changed(2, 0x24, 3, 2, area), HANTHUVELO_NOT_REDUCED));
    EXPECT(refused(trial(3, 8, 2, area, sizeof TRIAL_JOB - 1), HANTHUVELO_AREA_TOO_SHORT));
    EXPECT(refused(trial(3, 8, 2, NULL, 0), HANTHUVELO_AREA_TOO_SHORT));
    EXPECT(kept(area, 0, sizeof area));

    struct hanthuvelo_written w = trial(3, 8, 2, area, sizeof area);
    EXPECT(w.refusal == HANTHUVELO_WRITTEN && w.row == 0 && w.written == sizeof TRIAL_JOB);
    EXPECT(memcmp(area, TRIAL_JOB, sizeof TRIAL_JOB) == 0);
    EXPECT(kept(area, sizeof TRIAL_JOB, sizeof area));

    EXPECT(same(hanthuvelo_recover(area, w.written, answer, sizeof answer), HANTHUVELO_RECOVERED, 0, 12, 2));
    EXPECT(memcmp(answer, TRIAL_ANSWER, sizeof TRIAL_ANSWER) == 0);
    return 0;
}

static const uint32_t PRIMES[] = {7, 97, 257, 65521};

static int none(struct hanthuvelo_reciprocal r)
{
    return r.exists == 0 && r.value == HANTHUVELO_NO_RECIPROCAL;
}

/* Whether a call returns the reciprocal of this number, or none where it is 0 modulo the prime. */
static int is_reciprocal(uint32_t prime_code, uint32_t number)
{
    struct hanthuvelo_reciprocal r = hanthuvelo_reciprocal(prime_code, number);
    uint32_t prime = PRIMES[prime_code];
    if (number % prime == 0) {
        return none(r);
    }
    return r.exists == 1 && r.value < prime && (uint64_t)r.value * number % prime == 1;
}

int check_reciprocal(void)
{
    EXPECT(sizeof(struct hanthuvelo_reciprocal) == 8);
    EXPECT(offsetof(struct hanthuvelo_reciprocal, exists) == 0);
    EXPECT(offsetof(struct hanthuvelo_reciprocal, value) == 4);
    EXPECT(HANTHUVELO_NO_RECIPROCAL == 4294967295);

    static const uint32_t HALVES[] = {4, 49, 129, 32761};
    for (uint32_t code = 0; code < 4; code++) {
        struct hanthuvelo_reciprocal half = hanthuvelo_reciprocal(code, 2);
        EXPECT(half.exists == 1 && half.value == HALVES[code]);
        EXPECT(none(hanthuvelo_reciprocal(code, 0)));
        EXPECT(none(hanthuvelo_reciprocal(code, PRIMES[code])));
        for (uint32_t residue = 0; residue < PRIMES[code]; residue++) {
            EXPECT(is_reciprocal(code, residue));
            EXPECT(is_reciprocal(code, residue + PRIMES[code]));
            EXPECT(is_reciprocal(code, UINT32_MAX - residue));
        }
    }
    for (uint32_t number = 0; number < 10; number++) {
        for (uint32_t code = 4; code < 300; code++) {
            EXPECT(none(hanthuvelo_reciprocal(code, number)));
        }
        EXPECT(none(hanthuvelo_reciprocal((uint32_t)1 << 31, number)));
        EXPECT(none(hanthuvelo_reciprocal(UINT32_MAX, number)));
    }
    return 0;
}
