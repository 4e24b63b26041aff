/* Times frames of bench_frames beside memcpy of the same bytes. Words: the megabytes of a stream. */
#define _POSIX_C_SOURCE 199309L
#include <stdint.h>
#include <stdio.h>
#include <stdlib.h>
#include <string.h>
#include <time.h>

size_t bench_frames_write(size_t ints, uint8_t *out, size_t length);
uint64_t bench_frames_encode(size_t ints, uint64_t times);
uint64_t bench_frames_feed(const uint8_t *bytes, size_t length, size_t piece);

enum { TURNS = 5 };

static double now(void) {
    struct timespec t;
    clock_gettime(CLOCK_MONOTONIC, &t);
    return t.tv_sec + t.tv_nsec / 1e9;
}

static void fail(const char *what) {
    fprintf(stderr, "frames: %s\n", what);
    exit(1);
}

/* The shortest of some turns of one kind of work. */
enum work { COPY, ENCODE, FEED };

static double shortest(enum work work, size_t ints, const uint8_t *from, uint8_t *to, size_t length,
                       size_t piece, uint64_t frames) {
    double best = 1e30;
    for (int turn = 0; turn < TURNS; turn++) {
        double start = now();
        switch (work) {
        case COPY:
            for (size_t at = 0; at < length; at += piece) {
                memcpy(to + at, from + at, length - at < piece ? length - at : piece);
                __asm__ volatile("" ::: "memory");
            }
            break;
        case ENCODE:
            if (bench_frames_encode(ints, frames) != length) fail("encode answered other bytes");
            break;
        case FEED:
            if (bench_frames_feed(from, length, piece) != frames) fail("feed answered other frames");
            break;
        }
        double took = now() - start;
        if (took < best) best = took;
    }
    return best;
}

int main(int count, char **words) {
    size_t most = (size_t)(count > 1 ? atoi(words[1]) : 16) << 20;
    uint8_t *from = malloc(most), *to = malloc(most);
    if (!from || !to) fail("no memory");
    memset(to, 0, most);
    static const size_t arrays[] = {0, 1000};
    for (int kind = 0; kind < 2; kind++) {
        size_t ints = arrays[kind];
        size_t frame = bench_frames_write(ints, from, most);
        if (frame == 0) fail("no frame");
        uint64_t frames = most / frame;
        size_t length = frames * frame;
        for (uint64_t i = 1; i < frames; i++) memcpy(from + i * frame, from, frame);
        printf("Call with %zu ints, %zu bytes a frame, %.1f MB\n", ints, frame, length / 1e6);
        double copy = shortest(COPY, ints, from, to, length, frame, frames);
        double encode = shortest(ENCODE, ints, from, to, length, frame, frames);
        printf("  copied  frame by frame       %9.0f thousand frames a second\n", frames / copy / 1e3);
        printf("  encoded                      %9.0f thousand frames a second, %6.1f times copying\n", frames / encode / 1e3, encode / copy);
        static const size_t pieces[] = {1, 16, 1460, 65536};
        for (int p = 0; p < 4; p++) {
            size_t piece = pieces[p];
            copy = shortest(COPY, ints, from, to, length, piece, frames);
            double feed = shortest(FEED, ints, from, to, length, piece, frames);
            printf("  fed in pieces of %5zu bytes %9.0f thousand frames a second, %6.1f times copying; ns a byte of", piece, frames / feed / 1e3, feed / copy);
            /* The same for parts of the stream: the time of a byte stays where it grows linearly. */
            for (uint64_t part = 8; part >= 1; part /= 2) {
                uint64_t some = frames / part;
                double took = shortest(FEED, ints, from, to, some * frame, piece, some);
                printf(" 1/%llu %.2f", (unsigned long long)part, took * 1e9 / (some * frame));
            }
            printf("\n");
        }
    }
    free(from);
    free(to);
    return 0;
}
