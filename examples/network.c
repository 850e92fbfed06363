/* The job of lowpass.job packed from arrays, recovered, and its answer taken apart. */
#include <hanthuvelo.h>
#include <stdio.h>

/* The codes of the primes: 0 is 7, 1 is 97, 2 is 257, 3 is 65521. */
enum { PRIME_CODE = 1, OUTPUTS = 2, ROWS = 10, DF = 1, DG = 3, ERRORS = 2 };

/* A point and a value for each output. */
static const uint16_t rows[ROWS][1 + OUTPUTS] = {
    {0, 1, 1},   {1, 39, 78}, {2, 40, 23}, {3, 90, 61}, {4, 12, 60},
    {5, 47, 88}, {6, 41, 93}, {7, 46, 93}, {8, 53, 89}, {9, 11, 13},
};

static uint8_t *put_bytes(uint8_t *place, uint32_t number, int count)
{
    while (count-- > 0)
        *place++ = (uint8_t)(number >> 8 * count);
    return place;
}

/* The short header, whose fields have 2, 2, 5, 5, 5 and 4 bits before the spare bit, and the rows. */
static size_t pack(uint8_t *job)
{
    uint32_t prime_and_outputs = PRIME_CODE * 4 + OUTPUTS - 1;
    uint32_t fields = (((prime_and_outputs * 32 + ROWS) * 32 + DF) * 32 + DG) * 16 + ERRORS;
    uint8_t *end = put_bytes(job, fields * 2, 3);

    for (int row = 0; row < ROWS; row++)
        for (int column = 0; column < 1 + OUTPUTS; column++)
            end = put_bytes(end, rows[row][column], 2);
    return (size_t)(end - job);
}

static const uint8_t *print_polynomial(const char *name, const uint8_t *place, int count)
{
    printf("%s:", name);
    for (; count > 0; count--, place += 2)
        printf(" %d", place[0] * 256 + place[1]);
    printf("\n");
    return place;
}

int main(void)
{
    uint8_t job[HANTHUVELO_JOB_MAX], answer[HANTHUVELO_ANSWER_MAX];
    size_t length = pack(job);
    struct hanthuvelo_report report = hanthuvelo_recover(job, length, answer, sizeof answer);

    if (report.refusal != HANTHUVELO_RECOVERED) {
        printf("refused %u", (unsigned)report.refusal);
        if (report.refusal == HANTHUVELO_OUT_OF_RANGE || report.refusal == HANTHUVELO_REPEATED_POINT)
            printf(", row %u", (unsigned)report.row);
        printf("\n");
        return 1;
    }
    const uint8_t *place = print_polynomial("g", answer + 4, DG + 1);
    place = print_polynomial("f1", place, DF + 1);
    print_polynomial("f2", place, DF + 1);
    printf("wrong rows: %u, margin %u\n", (unsigned)report.wrong,
           (unsigned)hanthuvelo_margin(job, length, report.wrong));
    return 0;
}
