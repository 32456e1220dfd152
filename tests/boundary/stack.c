/*
 * The stack that each call of include/yikescanvas.h uses, measured: each runs on a stack of its own that was painted before, with the largest
 * parameters at which a word can be wide (d 6, n 63, words of 63 bits), t 20 and 21 wrong shares where it opens, 11 of them wide where it opens one
 * job or mends, and each prints its name and the bytes from the painted stack's top to the lowest one that changed, less what an empty call uses.
 * yikes_add_total runs once more, where a word is wide and it takes off again what it added. The calls on job text, which only books with d 4 have,
 * run with the longest text.
 */
#define _GNU_SOURCE
#include <stdint.h>
#include <stdio.h>
#include <string.h>
#include <ucontext.h>

#include "yikescanvas.h"

enum { K = 63, D = 6, N = 63, T = 20, E = 21, JOBS = 3, STACK = 1 << 20, FILE_BYTES = 23 + JOBS * (14 + 8 * D) };
#define BOOK K, D, N, T
#define JOB_WORDS (JOBS * D)

static uint64_t job[D], coefficients[T * D], shares[N * D], holders[N], words[N][JOB_WORDS], out[YIKES_ABOUT], wrong[2], dealt[N * D], running[D];
static uint64_t desk[YIKES_DESK] = {1000, 0};
static const uint64_t lens_job[4] = {UINT64_C(1) << 63, UINT64_C(1) << 63, UINT64_C(1) << 63, UINT64_C(1) << 63};
static uint8_t text[135];
static uint8_t lowest[YIKES_LOWEST];
static const uint64_t numbers[JOBS] = {1, 20, 300};
static uint8_t files[N * FILE_BYTES], bundle[7 + N * FILE_BYTES], wide[sizeof bundle], copy[sizeof bundle], line[YIKES_LINE], order[7];

static void empty(void) {}
static uint8_t answer;
static void add(void) { answer = yikes_add(BOOK, shares, D, job, D, out, D); }
static void scale(void) { answer = yikes_scale(BOOK, shares, D, job, D, out, D); }
static void invert(void) { answer = yikes_invert(BOOK, job, D, out, D); }
static void deal(void) { answer = yikes_deal(BOOK, job, D, coefficients, T * D, dealt, N * D); }
static void open_shares(void) { answer = yikes_open(BOOK, holders, N, shares, N * D, E, out, D, wrong, 1, lowest, YIKES_LOWEST); }
static void read_signed(void) { answer = yikes_signed(K, UINT64_MAX >> 1, out, 1); }
static void write_file(void) { answer = yikes_write_file(BOOK, 1, 7, numbers, JOBS, words[0], JOB_WORDS, files, FILE_BYTES); }
static void write_order(void) { answer = yikes_write_order(E, order, 7); }
static void write_bundle(void) { answer = yikes_write_bundle(E, files, sizeof files, copy, sizeof copy); }
static void check_file(void) { answer = yikes_check_file(files, FILE_BYTES); }
static void read_step(void) { answer = yikes_read(bundle, sizeof bundle, 0, out, 4); }
static void text_size(void) { answer = yikes_text_size(64, 4, 15, 14, UINT64_MAX, lens_job, 4, out, 1); }
static void write_text(void) { answer = yikes_write_text(64, 4, 15, 14, UINT64_MAX, lens_job, 4, text, sizeof text); }
static void read_text(void) { answer = yikes_read_text(64, 4, 15, 14, text, sizeof text, wrong, 1, out, 4); }
static void accept(void) { answer = yikes_accept(bundle, sizeof bundle); }
static void describe(void) { answer = yikes_describe(bundle, sizeof bundle, out, YIKES_ABOUT); }
static void job_number(void) { answer = yikes_job_number(bundle, sizeof bundle, 1, out, 1); }
static void file_part(void) { answer = yikes_file(bundle, sizeof bundle, N - 1, out, 3); }
static void open_place(void) { answer = yikes_open_place(wide, sizeof wide, JOBS - 1, out, D, wrong, 1, lowest, YIKES_LOWEST); }
static void total(void) { answer = yikes_total(bundle, sizeof bundle, N, 0, JOBS, out, D); }
static void add_total(void) {
    answer = yikes_add_total(bundle, sizeof bundle, N, 0, JOBS, running, D);
    if (yikes_add_total(wide, sizeof wide, N - 1, 0, JOBS, running, D) != YIKES_WIDE_WORD) answer = 1;
}
static void open_run(void) { answer = yikes_open_run(bundle, sizeof bundle, 0, JOBS, out, D, wrong, 1, lowest, YIKES_LOWEST); }
static void fetch_body(void) { answer = yikes_fetch_body(bundle, sizeof bundle, N, 1, wrong, 2); }
static void fetch_fault(void) { answer = yikes_fetch_fault(bundle, sizeof bundle, N, 1); }
static void list_line(void) { answer = yikes_list_line(wide, sizeof wide, JOBS - 1, line, sizeof line, wrong, 1); }
static void mend(void) { answer = yikes_mend(wide, sizeof wide, copy, sizeof copy); }
static void desk_start(void) { answer = yikes_desk_start(desk, YIKES_DESK, 1000); }
static void desk_open(void) {
    answer = yikes_desk_open(desk, YIKES_DESK, wide, sizeof wide, JOBS - 1, out, D, wrong, 1, lowest, YIKES_LOWEST);
}

static const struct {
    const char *name;
    void (*call)(void);
} calls[] = {{"", empty},
             {"yikes_add", add},
             {"yikes_scale", scale},
             {"yikes_invert", invert},
             {"yikes_deal", deal},
             {"yikes_open", open_shares},
             {"yikes_signed", read_signed},
             {"yikes_write_file", write_file},
             {"yikes_write_order", write_order},
             {"yikes_write_bundle", write_bundle},
             {"yikes_check_file", check_file},
             {"yikes_read", read_step},
             {"yikes_text_size", text_size},
             {"yikes_write_text", write_text},
             {"yikes_read_text", read_text},
             {"yikes_accept", accept},
             {"yikes_describe", describe},
             {"yikes_job_number", job_number},
             {"yikes_file", file_part},
             {"yikes_open_place", open_place},
             {"yikes_total", total},
             {"yikes_add_total", add_total},
             {"yikes_open_run", open_run},
             {"yikes_fetch_body", fetch_body},
             {"yikes_fetch_fault", fetch_fault},
             {"yikes_list_line", list_line},
             {"yikes_mend", mend},
             {"yikes_desk_start", desk_start},
             {"yikes_desk_open", desk_open}};

static uint64_t state = 7;
static uint64_t draw(void) {
    return (state = state * UINT64_C(6364136223846793005) + UINT64_C(1442695040888963407)) >> (64 - K);
}

/* A bundle of all 63 files, and the shares of its last job, in both of which the same 21 holders' are wrong; 11 of these shares of the last job are
 * made wide in the second bundle and in the shares. */
static int prepare(void) {
    size_t i, j, p;
    for (i = 0; i < N; i++) holders[i] = i + 1;
    for (p = 0; p < JOBS; p++) {
        for (i = 0; i < D; i++) job[i] = draw();
        for (i = 0; i < T * D; i++) coefficients[i] = draw();
        if (yikes_deal(BOOK, job, D, coefficients, T * D, shares, N * D) != 0) return 0;
        for (i = 1; i < N; i += 3) shares[i * D + i % D] ^= draw() | 1;
        for (i = 0; i < N; i++) {
            for (j = 0; j < D; j++) words[i][p * D + j] = shares[i * D + j];
        }
    }
    for (i = 0; i < N; i++) {
        if (yikes_write_file(BOOK, i + 1, 7, numbers, JOBS, words[i], JOB_WORDS, files + i * FILE_BYTES, FILE_BYTES) != 0) return 0;
    }
    if (yikes_write_bundle(E, files, sizeof files, bundle, sizeof bundle) != 0) return 0;
    memcpy(wide, bundle, sizeof bundle);
    for (i = 1; i < N; i += 6) {
        shares[i * D] |= UINT64_C(1) << K;
        wide[7 + (i + 1) * FILE_BYTES - 8 * D + 7] |= 1 << (K - 56);
    }
    return 1;
}

static unsigned char stack[STACK];
static ucontext_t here, there;

static size_t used(void (*call)(void)) {
    size_t low = 0;
    memset(stack, 0x5a, sizeof stack);
    getcontext(&there);
    there.uc_stack.ss_sp = stack;
    there.uc_stack.ss_size = sizeof stack;
    there.uc_link = &here;
    makecontext(&there, call, 0);
    swapcontext(&here, &there);
    while (low < sizeof stack && stack[low] == 0x5a) low++;
    return sizeof stack - low;
}

int main(void) {
    size_t i, base;
    if (!prepare()) return 1;
    base = used(calls[0].call);
    for (i = 1; i < sizeof calls / sizeof calls[0]; i++) {
        const size_t bytes = used(calls[i].call);
        if (answer != 0) return 1;
        printf("%s %zu\n", calls[i].name, bytes - base);
    }
    return 0;
}
