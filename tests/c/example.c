/* Each call once, as C99 and as C++11: checks two netlists, reads the one that is sound, renames a wire, shows it, writes the text, and takes the rename back. */
#include <skytassel.h>

#include <stdio.h>

static struct skytassel_design design;
static uint8_t text[SKYTASSEL_TEXT];

static void print(const uint8_t *start, size_t length)
{
    fwrite(start, 1, length, stdout);
}

static int print_text(void)
{
    struct skytassel_length_answer written = skytassel_design_write(&design, text, sizeof text);
    if (written.number != SKYTASSEL_NONE || written.length != skytassel_design_measure(&design).length)
        return 0;
    print(text, written.length);
    return 1;
}

/* A clinic checks a file long before it has memory for it. */
static int refused_twice(struct skytassel_bytes file)
{
    struct skytassel_answer checked = skytassel_bytes_check(file), filled = skytassel_design_fill(&design, file);
    printf("refused: %u at %u, %s\n", (unsigned)checked.number, (unsigned)checked.place, skytassel_words(checked.number));
    return checked.number == SKYTASSEL_BAD_NUMBER && filled.number == checked.number && filled.place == checked.place;
}

/* A front desk has the file alone. */
static void ask_file(struct skytassel_bytes file, struct skytassel_bytes name)
{
    struct skytassel_width_of_answer width = skytassel_bytes_width_of(file, 0, name);
    struct skytassel_index_of_answer top = skytassel_bytes_index_of(file, 0, name, width.width - 1);
    printf("width: %u, top bit: %lld\n", (unsigned)width.width, (long long)top.index);
}

/* A printer has letters, digits and underlines alone. */
static int there_and_back(struct skytassel_bytes name)
{
    uint8_t form[SKYTASSEL_PLAIN_FORM], back[SKYTASSEL_NAME];
    struct skytassel_length_answer formed = skytassel_bytes_plain_form(name, form, sizeof form);
    struct skytassel_length_answer named = skytassel_bytes_name_of(skytassel_bytes_at(form, formed.length), back, sizeof back);
    printf("plain: ");
    print(form, formed.length);
    printf("\n");
    return named.length == name.length && memcmp(back, name.start, name.length) == 0;
}

static void list(void)
{
    uint8_t lines[64];
    struct skytassel_length_answer listed = skytassel_design_listing(&design, 0, lines, sizeof lines);
    print(lines, listed.length);
}

int main(void)
{
    struct skytassel_bytes too_wide = skytassel_bytes_of("module \\ear\n  wire width 4096 \\gain\nend\n"), name = skytassel_bytes_of("\\gain"),
        ear = skytassel_bytes_of("module \\ear\n  wire \\y\n  attribute \\hdlname \"left ear\"\n  wire width 8 offset -4 \\gain\n"
            "  process \\p\n    switch \\gain [7]\n      case 1'1 , 1'x\n        assign \\y \\gain [0]\n    end\n  end\nend\n");
    if (!refused_twice(too_wide))
        return 1;
    ask_file(ear, name);
    if (skytassel_bytes_check(ear).number != SKYTASSEL_NONE || skytassel_design_fill(&design, ear).number != SKYTASSEL_NONE)
        return 1;

    struct skytassel_wire_answer gain = skytassel_design_look_up(&design, 0, name);
    if (gain.number != SKYTASSEL_NONE || skytassel_design_rename(&design, 0, gain.wire, skytassel_bytes_of("\\g")).number != SKYTASSEL_NONE)
        return 1;
    struct skytassel_shown shown = skytassel_design_show(&design, 0, gain.wire), none = skytassel_design_show(&design, 0, 2);
    if (none.number != SKYTASSEL_NOT_THERE || none.name.length != 0)
        return 1;
    printf("shown: ");
    print(shown.name.start, shown.name.length);
    printf("\nbit 0: %lld\n", (long long)skytassel_design_index(&design, 0, gain.wire, 0).index);
    if (!print_text() || !there_and_back(skytassel_bytes_of("\\\xc3\xa9")))
        return 1;
    list();

    if (skytassel_design_undo(&design).number != SKYTASSEL_NONE)
        return 1;
    printf("undo again: %s\n", skytassel_words(skytassel_design_undo(&design).number));
    return print_text() ? 0 : 1;
}
