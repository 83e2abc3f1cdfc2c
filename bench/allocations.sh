#!/bin/sh
# Runs the worked script with the first allocation failing, then the second, and so on until none fails, and prints the
# status and the replies of each run.
. "$(dirname "$0")/setup.sh"
cat > "$work/fail.c" <<'C'
#define _GNU_SOURCE
#include <dlfcn.h>
#include <errno.h>
#include <fcntl.h>
#include <stdlib.h>
#include <unistd.h>

static long calls, fails;

static int fails_now(void) {
    if (!fails) fails = atol(getenv("FAIL_CALL"));
    if (++calls != fails) return 0;
    errno = ENOMEM;
    return 1;
}

void *malloc(size_t size) {
    static void *(*next)(size_t);
    if (!next) next = dlsym(RTLD_NEXT, "malloc");
    return fails_now() ? NULL : next(size);
}

void *realloc(void *old, size_t size) {
    static void *(*next)(void *, size_t);
    if (!next) next = dlsym(RTLD_NEXT, "realloc");
    return fails_now() ? NULL : next(old, size);
}

int posix_memalign(void **out, size_t align, size_t size) {
    static int (*next)(void **, size_t, size_t);
    if (!next) next = dlsym(RTLD_NEXT, "posix_memalign");
    return fails_now() ? ENOMEM : next(out, align, size);
}

__attribute__((destructor)) static void tell_end(void) {
    if (calls < fails) close(creat("none_failed", 0600));
}
C
cc -shared -fPIC -O1 -o "$work/fail.so" "$work/fail.c" -ldl
cp "$top/crates/hawq/data/first.sql" "$work/a"
call=1
while [ ! -e "$work/none_failed" ]; do
    : > "$work/a.out"
    status=0
    text=$(cd "$work" && FAIL_CALL=$call LD_PRELOAD="$work/fail.so" "$program" run a) || status=$?
    echo "$call: status $status [$text] $(tr '\n' '/' < "$work/a.out")"
    call=$((call + 1))
done
