/* Recovers the job whose bytes come on standard input. */
#include <hanthuvelo.h>
#include <stdio.h>

int main(void)
{
    uint8_t job[HANTHUVELO_JOB_MAX + 1], answer[HANTHUVELO_ANSWER_MAX];
    size_t length = fread(job, 1, sizeof job, stdin);
    struct hanthuvelo_report report = hanthuvelo_recover(job, length, answer, sizeof answer);

    if (report.refusal != HANTHUVELO_RECOVERED) {
        printf("refused %u\n", (unsigned)report.refusal);
        return 1;
    }
    for (int row = 0; row < 32; row++)
        if (answer[row / 8] >> (7 - row % 8) & 1)
            printf("row %d is wrong\n", row);
    for (size_t place = 4; place < report.written; place += 2)
        printf("%d%s", answer[place] * 256 + answer[place + 1], place + 2 < report.written ? " " : "\n");
    return 0;
}
