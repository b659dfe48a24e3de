/* A plain switch interpreter of the machine's codes, which bench/vm.py measures the proved machine against. It keeps
   tagged values and a journal, and makes the machine's checks of sorts, ranges, objects and depth, over an image that
   the script writes as decimal numbers. The codes for bits, texts and contract assertions are left out, as no measured
   program has them. NUMBER is the type of a number: __int128 holds all values of the machine, long long most of them.

   usage: vm IMAGE LIMIT */
#include <stdint.h>
#include <stdio.h>
#include <stdlib.h>
#include <string.h>

#ifndef NUMBER
#define NUMBER __int128
#endif

typedef NUMBER number;
typedef enum { EMPTY, NUM, ADDRESS, NUL } sort;
typedef struct { sort sort; uint32_t leaf; union { number n; uint64_t object; }; } value;
typedef struct { uint8_t code; uint32_t a, b; } instruction;
typedef struct { uint32_t start, end, kind, of, target, depth; } region;
typedef struct { uint32_t counted, parameters, slots, result, length, region_count; instruction *code; region *regions; } function;
typedef struct { uint32_t kind, of; uint64_t object; uint32_t leaf; } event;
typedef struct { uint64_t number; uint32_t of; uint64_t object; uint32_t leaf; } exception;
typedef struct { exception *items; size_t length, capacity; } exceptions;
typedef struct { uint32_t function, place; value *operands; size_t top, capacity; value *slots; exceptions pending; } frame;
typedef struct { value *leaves; uint32_t count; } object;

enum { OUT, IN, IN_END, THROW, CATCH, THREW, DESTROYED };

static function *functions;
static uint32_t function_count, main_index, type_count, global_count;
static uint32_t *droppers;
static object *objects;
static uint64_t object_count = 1, object_capacity = 16;
static event *journal;
static size_t journal_length, journal_capacity;
static uint8_t *input, *output;
static size_t input_length, input_place, output_length, output_capacity;
static frame *frames;
static size_t depth, frame_capacity, counted;
static exceptions held;
static uint64_t thrown, steps;

static _Noreturn void ends(const char *text) {
    fwrite(output, 1, output_length, stdout);
    printf("%s after %llu steps, %zu events\n", text, (unsigned long long)steps, journal_length);
    exit(0);
}

static void *grown(void *items, size_t size) {
    void *more = realloc(items, size);
    if (!more) ends("no memory");
    return more;
}

static void note(uint32_t kind, uint32_t of, uint64_t number, uint32_t leaf) {
    if (journal_length == journal_capacity) {
        journal_capacity = journal_capacity ? 2 * journal_capacity : 16;
        journal = grown(journal, journal_capacity * sizeof *journal);
    }
    journal[journal_length++] = (event){kind, of, number, leaf};
}

static void push_exception(exceptions *all, exception e) {
    if (all->length == all->capacity) {
        all->capacity = all->capacity ? 2 * all->capacity : 4;
        all->items = grown(all->items, all->capacity * sizeof e);
    }
    all->items[all->length++] = e;
}

static int has(const exceptions *all, uint64_t number) {
    for (size_t i = 0; i < all->length; i++)
        if (all->items[i].number == number) return 1;
    return 0;
}

static int is_kept(uint64_t number) {
    if (has(&held, number)) return 1;
    for (size_t i = 0; i < depth; i++)
        if (has(&frames[i].pending, number)) return 1;
    return 0;
}

static uint64_t make(uint32_t count) {
    if (object_count == object_capacity) {
        object_capacity *= 2;
        objects = grown(objects, object_capacity * sizeof *objects);
    }
    value *leaves = calloc(count, sizeof *leaves);
    if (!leaves) ends("no memory");
    objects[object_count] = (object){leaves, count};
    return object_count++;
}

static value *leaf_of(uint64_t number, uint32_t leaf) {
    if (number >= object_count || !objects[number].leaves || leaf >= objects[number].count) return NULL;
    return &objects[number].leaves[leaf];
}

static void enter(uint32_t index, uint32_t count) {
    const function *f = &functions[index];
    if (f->counted && counted >= 4096) ends("too deep");
    if (depth == frame_capacity) {
        frame_capacity = frame_capacity ? 2 * frame_capacity : 16;
        frames = grown(frames, frame_capacity * sizeof *frames);
    }
    value *slots = calloc(f->slots ? f->slots : 1, sizeof *slots);
    if (!slots) ends("no memory");
    if (depth) {
        frame *caller = &frames[depth - 1];
        caller->top -= count;
        memcpy(slots, caller->operands + caller->top, count * sizeof *slots);
    }
    frames[depth++] = (frame){.function = index, .slots = slots};
    counted += f->counted;
}

static void leave(void) {
    frame *last = &frames[--depth];
    counted -= functions[last->function].counted;
    free(last->operands);
    free(last->slots);
    free(last->pending.items);
}

static number least(uint32_t scalar) {
    return scalar == 2 ? -0x80 : scalar == 3 ? -0x80000000LL : scalar == 5 ? INT64_MIN : 0;
}

static number greatest(uint32_t scalar) {
    switch (scalar) {
    case 1: return 1;
    case 2: return 0x7f;
    case 3: return 0x7fffffff;
    case 4: return 0xffffffffLL;
    case 5: return INT64_MAX;
    default: return (number)UINT64_MAX;
    }
}

static int is_within(uint32_t scalar, number n) { return least(scalar) <= n && n <= greatest(scalar); }

static number fitted(uint32_t scalar, number n) {
    if (scalar == 4) return (uint32_t)n;
    if (scalar == 6) return (number)(uint64_t)n;
    if (!is_within(scalar, n)) ends("overflow");
    return n;
}

static void unwind(exception e) {
    for (uint32_t next = 0;; steps++) {
        frame *f = &frames[depth - 1];
        const function *fn = &functions[f->function];
        while (next < fn->region_count && !(fn->regions[next].start <= f->place && f->place < fn->regions[next].end)) next++;
        if (next == fn->region_count) {
            if (depth == 1) ends("terminated");
            leave();
            next = 0;
            continue;
        }
        region r = fn->regions[next++];
        if (r.kind == 4) ends("terminated");
        if (r.kind == 2 && r.of != 0 && r.of - 1 != e.of) continue;
        if (r.kind == 1) push_exception(&f->pending, e);
        else push_exception(&held, e);
        if (r.kind == 2) note(CATCH, e.of, 0, 0);
        if (r.kind == 3) note(THREW, 0, 0, 0);
        f->top = r.depth;
        f->place = r.target;
        steps++;
        return;
    }
}

static value num(number n) { return (value){.sort = NUM, .n = n}; }
static value address(uint64_t number, uint32_t leaf) { return (value){.sort = ADDRESS, .leaf = leaf, .object = number}; }

#define PUSH(v) do { value pushed_ = (v); if (f->top == f->capacity) { f->capacity = f->capacity ? 2 * f->capacity : 8; \
    f->operands = grown(f->operands, f->capacity * sizeof(value)); } f->operands[f->top++] = pushed_; } while (0)
#define POP() (f->operands[--f->top])
#define TAKE_NUMBER(x) value x##_ = POP(); if (x##_.sort != NUM) ends("mixed"); number x = x##_.n
#define TAKE_OBJECT(x) value x = POP(); if (x.sort != ADDRESS) ends("mixed")
#define TAKE_ADDRESS(x) value x = POP(); if (x.sort != ADDRESS) ends(x.sort == NUL ? "null" : "mixed")
#define COMPARED(test) { TAKE_NUMBER(y); TAKE_NUMBER(x); PUSH(num(test)); f->place++; break; }
#define BINARY(result) { TAKE_NUMBER(y); TAKE_NUMBER(x); if (!is_within(i.a, x) || !is_within(i.a, y)) ends("mixed"); \
    PUSH(num(result)); f->place++; break; }
#define UNARY(result) { TAKE_NUMBER(x); if (!is_within(i.a, x)) ends("mixed"); PUSH(num(result)); f->place++; break; }

static int equal(value x, value y) {
    if ((x.sort == NUM) != (y.sort == NUM)) ends("mixed");
    if (x.sort == NUM) return x.n == y.n;
    if (x.sort != y.sort) return 0;
    return x.sort == NUL || (x.object == y.object && x.leaf == y.leaf);
}

static number quotient(uint32_t scalar, number x, number y) {
    if (y == 0 || !is_within(scalar, x / y)) ends("division");
    return x / y;
}

static number converted(uint32_t scalar, number n) {
    switch (scalar) {
    case 1: return n != 0;
    case 2: return (int8_t)n;
    case 3: return (int32_t)n;
    case 4: return (uint32_t)n;
    case 5: return (int64_t)n;
    default: return (number)(uint64_t)n;
    }
}

static void run(uint64_t limit) {
    frame *f = &frames[depth - 1];
    const instruction *code = functions[f->function].code;
    while (steps < limit) {
        instruction i = code[f->place];
        steps++;
        switch (i.code) {
        case 1: PUSH(num((int64_t)((uint64_t)i.a << 32 | i.b))); f->place++; break;
        case 2: PUSH(num((number)((uint64_t)i.a << 32 | i.b))); f->place++; break;
        case 3: PUSH(((value){.sort = NUL})); f->place++; break;
        case 4: { value v = f->operands[f->top - 1]; PUSH(v); f->place++; break; }
        case 5: f->top--; f->place++; break;
        case 6: { value y = POP(); value x = POP(); PUSH(y); PUSH(x); f->place++; break; }
        case 7: { value v = f->slots[i.a]; if (v.sort == EMPTY) ends("mixed"); PUSH(v); f->place++; break; }
        case 8: f->slots[i.a] = POP(); f->place++; break;
        case 9: f->slots[i.b] = address(make(i.a), 0); f->place++; break;
        case 10: {
            TAKE_OBJECT(p);
            if (p.leaf != 0) ends("mixed");
            if (!leaf_of(p.object, 0)) ends("dead");
            free(objects[p.object].leaves);
            objects[p.object].leaves = NULL;
            f->place++;
            break;
        }
        case 11: {
            TAKE_ADDRESS(p);
            value *l = leaf_of(p.object, p.leaf);
            if (!l) ends("dead");
            if (l->sort == EMPTY) ends("unset");
            PUSH(*l);
            f->place++;
            break;
        }
        case 12: {
            value v = POP();
            TAKE_ADDRESS(p);
            value *l = leaf_of(p.object, p.leaf);
            if (!l) ends("dead");
            *l = v;
            f->place++;
            break;
        }
        case 13: {
            TAKE_ADDRESS(p);
            if (!leaf_of(p.object, p.leaf + i.a)) ends("dead");
            PUSH(address(p.object, p.leaf + i.a));
            f->place++;
            break;
        }
        case 14: {
            value q = POP(), p = POP();
            if (p.sort == NUM || q.sort == NUM) ends("mixed");
            if (p.sort == NUL) ends("null");
            value *from = leaf_of(p.object, p.leaf);
            if (!from) ends("dead");
            if (q.sort == NUL) ends("null");
            value *to = leaf_of(q.object, q.leaf);
            if (!to) ends("dead");
            *to = *from;
            f->place++;
            break;
        }
        case 15: UNARY(fitted(i.a, -x))
        case 16: UNARY(x == 0)
        case 17: UNARY(fitted(i.a, ~x))
        case 18: BINARY(fitted(i.a, x + y))
        case 19: BINARY(fitted(i.a, x - y))
        case 20: BINARY(fitted(i.a, x * y))
        case 21: BINARY(quotient(i.a, x, y))
        case 22: BINARY(x - y * quotient(i.a, x, y))
        case 28: { value y = POP(), x = POP(); PUSH(num(equal(x, y))); f->place++; break; }
        case 29: { value y = POP(), x = POP(); PUSH(num(!equal(x, y))); f->place++; break; }
        case 30: COMPARED(x < y)
        case 31: COMPARED(x <= y)
        case 32: COMPARED(x > y)
        case 33: COMPARED(x >= y)
        case 34: {
            value x = POP();
            if (x.sort != NUM && i.a != 1) ends("mixed");
            PUSH(num(x.sort == NUM ? converted(i.a, x.n) : x.sort == ADDRESS));
            f->place++;
            break;
        }
        case 35: f->place = i.a; break;
        case 36: { TAKE_NUMBER(n); f->place = n == 0 ? i.a : f->place + 1; break; }
        case 37: { TAKE_NUMBER(n); f->place = n != 0 ? i.a : f->place + 1; break; }
        case 38: enter(i.a, i.b); goto moved;
        case 39: {
            int has_result = functions[f->function].result;
            value result = has_result ? POP() : (value){.sort = EMPTY};
            if (depth == 1) {
                if (result.sort != NUM || !is_within(3, result.n)) ends("mixed");
                ends("returned");
            }
            leave();
            f = &frames[depth - 1];
            if (has_result) PUSH(result);
            f->place++;
            goto moved;
        }
        case 40: PUSH(address(i.a + 1, 0)); f->place++; break;
        case 41: {
            TAKE_NUMBER(n);
            if (output_length == output_capacity) {
                output_capacity = output_capacity ? 2 * output_capacity : 64;
                output = grown(output, output_capacity);
            }
            output[output_length++] = (uint8_t)n;
            PUSH(num((uint8_t)n));
            note(OUT, (uint8_t)n, 0, 0);
            f->place++;
            break;
        }
        case 42:
            if (input_place < input_length) {
                uint8_t byte = input[input_place++];
                PUSH(num(byte));
                note(IN, byte, 0, 0);
            } else {
                PUSH(num(-1));
                note(IN_END, 0, 0, 0);
            }
            f->place++;
            break;
        case 49: {
            TAKE_OBJECT(p);
            note(THROW, i.a, 0, 0);
            unwind((exception){thrown++, i.a, p.object, p.leaf});
            goto moved;
        }
        case 50: {
            if (!held.length) ends("terminated");
            exception e = held.items[held.length - 1];
            note(THROW, e.of, 0, 0);
            unwind(e);
            goto moved;
        }
        case 51: {
            if (!held.length) ends("mixed");
            exception e = held.items[held.length - 1];
            PUSH(address(e.object, e.leaf));
            f->place++;
            break;
        }
        case 52: {
            if (!held.length) ends("mixed");
            exception e = held.items[--held.length];
            if (is_kept(e.number)) { f->place++; break; }
            PUSH(address(e.object, e.leaf));
            enter(droppers[e.of] - 1, 1);
            goto moved;
        }
        case 53: {
            exception e = f->pending.items[--f->pending.length];
            unwind(e);
            goto moved;
        }
        case 54: {
            TAKE_OBJECT(p);
            note(DESTROYED, i.a, p.object, p.leaf);
            f->place++;
            break;
        }
        case 55: ends("flow");
        default: ends("no such code");
        }
        continue;
    moved:
        f = &frames[depth - 1];
        code = functions[f->function].code;
    }
    ends("steps spent");
}

static uint32_t next_number(FILE *file) {
    unsigned long long n;
    if (fscanf(file, "%llu", &n) != 1) exit(2);
    return (uint32_t)n;
}

static void load(const char *name) {
    FILE *file = fopen(name, "r");
    if (!file) exit(2);
    main_index = next_number(file);
    type_count = next_number(file);
    droppers = calloc(type_count + 1, sizeof *droppers);
    for (uint32_t t = 0; t < type_count; t++) droppers[t] = next_number(file);
    objects = calloc(object_capacity, sizeof *objects);
    global_count = next_number(file);
    for (uint32_t g = 0; g < global_count; g++) objects[make(1)].leaves[0] = num(next_number(file));
    function_count = next_number(file);
    functions = calloc(function_count, sizeof *functions);
    for (uint32_t n = 0; n < function_count; n++) {
        function *f = &functions[n];
        f->counted = next_number(file);
        f->parameters = next_number(file);
        f->slots = next_number(file);
        f->result = next_number(file);
        f->length = next_number(file);
        f->code = calloc(f->length, sizeof *f->code);
        for (uint32_t i = 0; i < f->length; i++) {
            f->code[i].code = (uint8_t)next_number(file);
            f->code[i].a = next_number(file);
            f->code[i].b = next_number(file);
        }
        f->region_count = next_number(file);
        f->regions = calloc(f->region_count + 1, sizeof *f->regions);
        for (uint32_t r = 0; r < f->region_count; r++) {
            uint32_t *fields[] = {&f->regions[r].start, &f->regions[r].end, &f->regions[r].kind, &f->regions[r].of, &f->regions[r].target, &f->regions[r].depth};
            for (int k = 0; k < 6; k++) *fields[k] = next_number(file);
        }
    }
    fclose(file);
}

static void read_all(void) {
    size_t capacity = 65536, count;
    input = grown(NULL, capacity);
    while ((count = fread(input + input_length, 1, capacity - input_length, stdin)) > 0) {
        input_length += count;
        if (input_length == capacity) input = grown(input, capacity *= 2);
    }
}

int main(int argc, char **argv) {
    if (argc != 3) return 2;
    load(argv[1]);
    read_all();
    enter(main_index, 0);
    run(strtoull(argv[2], NULL, 10));
}
