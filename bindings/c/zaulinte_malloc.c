/* The two functions by which the archives allocate and free memory, with malloc and free. NOT PROVED. */
#include <stdbool.h>
#include <stddef.h>
#include <stdlib.h>

#ifdef __cplusplus
#error "compile zaulinte_malloc.c as C"
#endif
struct tried {
    bool is;
    void *at;
};
struct tried rattle_alloc(size_t bytes, size_t align);
void rattle_dealloc(void *at);

struct tried rattle_alloc(size_t bytes, size_t align) {
    void *at = align <= _Alignof(max_align_t) ? malloc(bytes) : NULL;
    return (struct tried){at != NULL, at};
}
void rattle_dealloc(void *at) { free(at); }
