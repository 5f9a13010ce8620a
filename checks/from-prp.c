/* What nippitsun_from_prp makes of frames, for checks/captures: from-prp KIND <FRAMES >ANSWERS, with KIND as the call takes it.
   A frame stands behind its length in two bytes, high byte first. An answer is the refusal and the network, a byte each, and the
   tagged frame, behind its length too. */
#include "../bindings/c/nippitsun.h"
#include <stdio.h>
#include <stdlib.h>

int main(int count, char **words)
{
    /* More than a length of two bytes can say. */
    static uint8_t frame[1 << 16], out[NIPPITSUN_FRAME_MOST];
    uint8_t head[2];
    if (count != 2) return 2;
    while (fread(head, sizeof head, 1, stdin) == 1) {
        size_t length = (size_t)head[0] << 8 | head[1];
        if (fread(frame, 1, length, stdin) != length) return 2;
        nippitsun_prp_answer a = nippitsun_from_prp(frame, length, (uint8_t)atoi(words[1]), out, sizeof out);
        fwrite((uint8_t[]){a.refusal, a.network, (uint8_t)(a.length >> 8), (uint8_t)a.length}, 1, 4, stdout);
        fwrite(out, 1, a.length, stdout);
    }
    return fflush(stdout) == 0 ? 0 : 1;
}
