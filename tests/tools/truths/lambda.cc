// A server in C++, whose callbacks are lambdas.
#include <cstdio>
#include <uv.h>

class Server {
    uv_timer_t poll_, stop_;

public:
    void run(uv_loop_t *loop) {
        uv_timer_init(loop, &poll_);
        uv_timer_init(loop, &stop_);
        poll_.data = this;
        uv_timer_start(&poll_, [](uv_timer_t *timer) {
            uint64_t begin = uv_hrtime();
            while (uv_hrtime() - begin < 35000000) continue;
            std::printf("main_server_0 took %d ms\n", int((uv_hrtime() - begin + 500000) / 1000000));
            uv_timer_stop(timer);
        }, 10, 10);
        uv_timer_start(&stop_, [](uv_timer_t *timer) { uv_close((uv_handle_t *)timer, nullptr); }, 20, 0);
    }
};

int main() {
    static Server server;
    server.run(uv_default_loop());
    uv_run(uv_default_loop(), UV_RUN_DEFAULT);
    return 0;
}
