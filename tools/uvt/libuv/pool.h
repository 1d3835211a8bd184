// libuv's thread pool, led step by step. Its workers are real threads of libuv; each is held at two places, and goes on from
// there only when it is told to: before it looks for its next request, and while it does one.
#ifndef POOL_H
#define POOL_H

#include <stddef.h>
#include <uv.h>

enum { MOST_WORKERS = 1024 };

// Gives each of the pool's threads a number, and holds it. Once, before the first request.
void seat_workers(size_t count);

// The worker of this number takes the request that waits longest. There has to be one, and the worker has to be held before it.
void let_take(size_t worker);

// The worker of this number is through with its request. When this returns the request is on its loop's list of those that are done.
void let_finish(size_t worker);

// What a request does, as its uv_work_cb.
void do_work(uv_work_t *request);

#endif
