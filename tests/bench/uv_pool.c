/* The same load for libuv's thread pool: `uv_pool WORKERS JOBS ROUNDS` prints jobs a second.
 * cc -O2 -o /tmp/uv_pool uv_pool.c -luv */
#include <stdint.h>
#include <stdio.h>
#include <stdlib.h>
#include <string.h>
#include <uv.h>

static const uint32_t K[64] = {
    0x428a2f98, 0x71374491, 0xb5c0fbcf, 0xe9b5dba5, 0x3956c25b, 0x59f111f1, 0x923f82a4, 0xab1c5ed5,
    0xd807aa98, 0x12835b01, 0x243185be, 0x550c7dc3, 0x72be5d74, 0x80deb1fe, 0x9bdc06a7, 0xc19bf174,
    0xe49b69c1, 0xefbe4786, 0x0fc19dc6, 0x240ca1cc, 0x2de92c6f, 0x4a7484aa, 0x5cb0a9dc, 0x76f988da,
    0x983e5152, 0xa831c66d, 0xb00327c8, 0xbf597fc7, 0xc6e00bf3, 0xd5a79147, 0x06ca6351, 0x14292967,
    0x27b70a85, 0x2e1b2138, 0x4d2c6dfc, 0x53380d13, 0x650a7354, 0x766a0abb, 0x81c2c92e, 0x92722c85,
    0xa2bfe8a1, 0xa81a664b, 0xc24b8b70, 0xc76c51a3, 0xd192e819, 0xd6990624, 0xf40e3585, 0x106aa070,
    0x19a4c116, 0x1e376c08, 0x2748774c, 0x34b0bcb5, 0x391c0cb3, 0x4ed8aa4a, 0x5b9cca4f, 0x682e6ff3,
    0x748f82ee, 0x78a5636f, 0x84c87814, 0x8cc70208, 0x90befffa, 0xa4506ceb, 0xbef9a3f7, 0xc67178f2,
};

static uint32_t turn(uint32_t x, int n) { return x >> n | x << (32 - n); }

/* SHA-256 (FIPS 180-4) of a text of at most 55 bytes: one block. */
static void sha256(const uint8_t *text, size_t len, uint8_t digest[32]) {
    uint32_t h[8] = {0x6a09e667, 0xbb67ae85, 0x3c6ef372, 0xa54ff53a, 0x510e527f, 0x9b05688c, 0x1f83d9ab, 0x5be0cd19};
    uint32_t w[64], s[8];
    uint8_t block[64] = {0};
    memcpy(block, text, len);
    block[len] = 0x80;
    block[62] = (uint8_t)(len * 8 >> 8);
    block[63] = (uint8_t)(len * 8);
    for (int i = 0; i < 16; i++)
        w[i] = (uint32_t)block[4 * i] << 24 | (uint32_t)block[4 * i + 1] << 16 | (uint32_t)block[4 * i + 2] << 8 | block[4 * i + 3];
    for (int i = 16; i < 64; i++) {
        uint32_t a = w[i - 15], b = w[i - 2];
        w[i] = w[i - 16] + (turn(a, 7) ^ turn(a, 18) ^ a >> 3) + w[i - 7] + (turn(b, 17) ^ turn(b, 19) ^ b >> 10);
    }
    memcpy(s, h, sizeof s);
    for (int i = 0; i < 64; i++) {
        uint32_t t = s[7] + (turn(s[4], 6) ^ turn(s[4], 11) ^ turn(s[4], 25)) + ((s[4] & s[5]) ^ (~s[4] & s[6])) + K[i] + w[i];
        uint32_t u = (turn(s[0], 2) ^ turn(s[0], 13) ^ turn(s[0], 22)) + ((s[0] & s[1]) ^ (s[0] & s[2]) ^ (s[1] & s[2]));
        memmove(s + 1, s, 7 * sizeof *s);
        s[4] += t;
        s[0] = t + u;
    }
    for (int i = 0; i < 8; i++) {
        uint32_t x = h[i] + s[i];
        digest[4 * i] = (uint8_t)(x >> 24), digest[4 * i + 1] = (uint8_t)(x >> 16);
        digest[4 * i + 2] = (uint8_t)(x >> 8), digest[4 * i + 3] = (uint8_t)x;
    }
}

struct job {
    uv_work_t request;
    uint8_t digest[32];
};

static int rounds, done, wrong;
static uint8_t wanted[32];

static void compute(uint8_t digest[32]) {
    sha256((const uint8_t *)"", 0, digest);
    for (int i = 1; i < rounds; i++) {
        uint8_t next[32];
        sha256(digest, 32, next);
        memcpy(digest, next, 32);
    }
}

static void work(uv_work_t *request) { compute(((struct job *)request->data)->digest); }

static void after(uv_work_t *request, int status) {
    done += status == 0;
    wrong += memcmp(((struct job *)request->data)->digest, wanted, 32) != 0;
}

int main(int argc, char **argv) {
    if (argc != 4) return 2;
    int jobs = atoi(argv[2]);
    rounds = atoi(argv[3]);
    setenv("UV_THREADPOOL_SIZE", argv[1], 1);
    struct job *all = calloc((size_t)jobs, sizeof *all);
    uv_loop_t *loop = uv_default_loop();
    compute(wanted);
    uint64_t start = uv_hrtime();
    for (int i = 0; i < jobs; i++) {
        all[i].request.data = &all[i];
        uv_queue_work(loop, &all[i].request, work, after);
    }
    uv_run(loop, UV_RUN_DEFAULT);
    double seconds = (double)(uv_hrtime() - start) / 1e9;
    start = uv_hrtime();
    for (int i = 0; i < jobs; i++) compute(all[i].digest);
    double alone = (double)(uv_hrtime() - start) / 1e9;
    if (done != jobs || wrong) return 1;
    printf("%s workers, %d rounds: %.0f jobs a second\n", argv[1], rounds, jobs / seconds);
    printf("one thread hashes %.0f jobs a second\n", jobs / alone);
    return 0;
}
