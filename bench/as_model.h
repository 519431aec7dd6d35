/*
** Put before plain.c by the compiler's -include: plain C then answers under
** the library's own names, and can be linked in its place (make MODEL=plain).
*/
#define plain_start ssd1815b_start
#define plain_start_upright ssd1815b_start_upright
#define plain_command ssd1815b_command
#define plain_write ssd1815b_write
#define plain_read ssd1815b_read
#define plain_reset ssd1815b_reset
#define plain_run ssd1815b_run
#define plain_record ssd1815b_record
#define plain_power_state ssd1815b_power_state
#define plain_draw ssd1815b_draw
#define plain_list ssd1815b_list
#define plain_compare_frames ssd1815b_compare_frames
#define plain_compare_memories ssd1815b_compare_memories
#define plain_wide_command ssd1815b_wide_command
#define plain_wide_write ssd1815b_wide_write
#define plain_wide_read ssd1815b_wide_read
#define plain_wide_reset ssd1815b_wide_reset
#define plain_wide_run ssd1815b_wide_run
#define plain_wide_draw ssd1815b_wide_draw
#define plain_wide_page ssd1815b_wide_page
#define plain_wide_list ssd1815b_wide_list
