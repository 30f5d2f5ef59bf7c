/* Memory of clients: wl_shm, read by pread and never mapped. Not proved.
 *
 * Libwayland has a wl_shm of its own, which maps what it is given: a file that shrinks would stop
 * the host at a page. Here a pool is memory of the kernel's, which the porter has looked at and
 * this looks at again, and whatever a client does to it a read comes back at once. It is closed by
 * a thread of its own, since to free much memory takes long. */
#include "desk.h"
#include <fcntl.h>
#include <pthread.h>
#include <unistd.h>

enum { POOLS = 128 /* of a client; each is a descriptor of the host */ };

struct pool {
    int file, users;
    struct client *client;
};

/* ---- Closing */

static int closers[2] = { -1, -1 };

static void *close_all(void *none)
{
    int file;
    while (read(closers[0], &file, sizeof file) == sizeof file)
        close(file);
    return none;
}

bool shm_start(void)
{
    pthread_t closer;
    return pipe2(closers, O_CLOEXEC) == 0 && fcntl(closers[1], F_SETFL, O_NONBLOCK) == 0 &&
           pthread_create(&closer, NULL, close_all, NULL) == 0 && pthread_detach(closer) == 0;
}

static void close_soon(int file)
{
    if (write(closers[1], &file, sizeof file) != sizeof file)
        close(file);
}

/* ---- Buffers */

static void pool_left(struct pool *pool)
{
    if (--pool->users > 0)
        return;
    close_soon(pool->file);
    pool->client->pools--;
    free(pool);
}

static void buffer_gone(struct wl_resource *self)
{
    struct buffer *buffer = object_data(self);
    pool_left(buffer->pool);
}

static const struct kind BUFFER = { &wl_buffer_interface, .gone = buffer_gone,
                                    .size = sizeof(struct buffer) };

/* Reads a part of a row. False where the client's file has no such words. */
bool buffer_read(const struct buffer *buffer, int32_t x, int32_t y, int32_t w, uint32_t *words)
{
    off_t at = buffer->offset + (off_t)y * buffer->stride + 4 * (off_t)x;
    return pread(buffer->pool->file, words, 4 * (size_t)w, at) == 4 * (ssize_t)w;
}

/* ---- Pools */

static void buffer_new(struct pool *pool, struct wl_resource *self, union wl_argument *with)
{
    const struct buffer like = { pool, with[1].i, with[2].i, with[3].i, with[4].i,
                                 with[5].u == WL_SHM_FORMAT_XRGB8888 };
    if (with[5].u != WL_SHM_FORMAT_XRGB8888 && with[5].u != WL_SHM_FORMAT_ARGB8888) {
        wl_resource_post_error(self, WL_SHM_ERROR_INVALID_FORMAT, "XRGB8888 or ARGB8888");
        return;
    }
    if (like.offset < 0 || like.w <= 0 || like.h <= 0 || like.stride / 4 < like.w) {
        wl_resource_post_error(self, WL_SHM_ERROR_INVALID_STRIDE, "no such rows");
        return;
    }
    struct wl_resource *any = object_new(self, &BUFFER, with[0].n, NULL);
    if (!any)
        return;
    *(struct buffer *)object_data(any) = like;
    pool->users++;
}

static void pool_request(struct wl_resource *self, uint32_t number, union wl_argument *with)
{
    if (number == WL_SHM_POOL_CREATE_BUFFER)
        buffer_new(object_data(self), self, with);
}

static void pool_gone(struct wl_resource *self)
{
    pool_left(object_data(self));
}

static const struct kind POOL = { &wl_shm_pool_interface, .request = pool_request,
                                  .gone = pool_gone };

static void shm_begun(struct wl_resource *self)
{
    wl_shm_send_format(self, WL_SHM_FORMAT_ARGB8888);
    wl_shm_send_format(self, WL_SHM_FORMAT_XRGB8888);
}

static void shm_request(struct wl_resource *self, uint32_t number, union wl_argument *with)
{
    struct client *client = client_of(self);
    if (number != WL_SHM_CREATE_POOL)
        return;
    int file = with[1].h;
    struct pool *pool = client->pools < POOLS ? malloc(sizeof *pool) : NULL;
    if (fcntl(file, F_GET_SEALS) < 0)
        wl_resource_post_error(self, WL_SHM_ERROR_INVALID_FD, "a memfd, or shared memory");
    else if (!pool || !object_new(self, &POOL, with[0].n, pool))
        wl_client_post_no_memory(client->wl);
    else {
        *pool = (struct pool){ file, 1, client };
        client->pools++;
        return;
    }
    close_soon(file);
    free(pool);
}

const struct kind SHM = { &wl_shm_interface, .request = shm_request, .begun = shm_begun };
