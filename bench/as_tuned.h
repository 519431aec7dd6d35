/*
** Put before a test by the compiler's -include: the test then makes the two
** comparing calls on tuned C and the two drawing calls on the SSE2 loop, and all
** others on the model that it is linked with.
*/
#define ssd1815b_compare_frames tuned_compare_frames
#define ssd1815b_compare_memories tuned_compare_memories
#ifdef __SSE2__
#define ssd1815b_draw sse2_draw
#define ssd1815b_wide_draw sse2_wide_draw
#endif
#define TESTED "differences by tuned C" /* as host/test/differences.c tells */
