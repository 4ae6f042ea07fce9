// plain: reads a schedule from standard input and prints its listing, byte by byte as ribrun does. It is
// there to be measured beside ribrun: the same rules (docs/LOCK.md, docs/SCHEDULES.md, docs/REFUSALS.md),
// written for speed, with nothing proved.
//
// It leaves out what no schedule of 65,536 bytes can show: refusals 1 to 6, 15, 16, 22, 25, 27, 28 and 32, the
// total and the number of finished attempts, and the ceiling of a cost. Words and Packed differ only in how many tasks
// they allow, Ring and Masks in nothing, so there is one array of cells and one ring.
#include <charconv>
#include <cstddef>
#include <cstdint>
#include <cstdlib>
#include <cstring>
#include <iterator>
#include <string_view>
#include <unistd.h>

namespace {

constexpr std::size_t longest_schedule = 65536;
constexpr std::uint32_t rows = 16;
constexpr std::uint32_t thickest = 1000000;
constexpr std::uint32_t most_upgrades = 1000;
constexpr std::size_t most_tasks = 64;
constexpr std::size_t packed_tasks = 15;

// ---- the lock ----

enum Cell { C, D, Gate, X, Permit, U, V, cell_count };

enum class Standing : std::uint8_t { normal, upgraded, downgraded };

// Where a task is: at rest, inside, or before a line. Downgrading and leaving have their own 28.1 and 28.2.
enum class Place : std::uint8_t {
    rest, inside,
    l0_1, l0_2, l1, l2, l3, l4, l6, l7, l8, l9, l10, l11, l12, l13, l14, l15,
    l16, l16_1, l17, l18, l19, l20, l21, l22, l22_1, l22_2, l23,
    l25_1, l25_2, l25_3, l26_1, l27_1, l27_2, l27_3, l27_4, l27_5,
    down28_1, down28_2, leave28_1, leave28_2, l29_2, l32_1,
};

struct Task {
    Place place = Place::rest;
    bool writer = false;
    Standing standing = Standing::normal;
    std::uint32_t previous = 0, current = 0, d = 0, x = 0;
    std::uint32_t cost = 0, upgrades = 0;

    bool may_write() const {
        return writer ? standing != Standing::downgraded : standing == Standing::upgraded;
    }
    void enter(Standing how) { place = Place::inside, standing = how; }
    void rest() { place = Place::rest, standing = Standing::normal; }
};

struct Lock {
    std::uint32_t task_count = 0;                 // 0 while the lock is closed
    std::uint32_t cells[cell_count] = {0, 0, 0, 1, 1, 0, 0};
    std::uint64_t copies[cell_count] = {};        // for each cell the tasks that hold a copy
    std::uint32_t queue[most_tasks];              // the waiting writers, a ring
    std::uint32_t first = 0, waiting = 0;
    std::uint32_t table[rows] = {};
    Task tasks[most_tasks + 1];                   // by number, from 1 on

    // The operations of a task on a cell. A read is free for a task that holds a copy, and hands one out; all else
    // costs 1 and empties the cell's copies.
    std::uint32_t read(std::uint32_t self, Cell cell) {
        const std::uint64_t bit = std::uint64_t{1} << (self - 1);
        tasks[self].cost += (copies[cell] & bit) == 0;
        copies[cell] |= bit;
        return cells[cell];
    }
    void write(std::uint32_t self, Cell cell, std::uint32_t number) {
        cells[cell] = number;
        touched(self, cell);
    }
    void add(std::uint32_t self, Cell cell, std::uint32_t change) {
        cells[cell] += change;
        touched(self, cell);
    }
    bool swap(std::uint32_t self, Cell cell, std::uint32_t expected, std::uint32_t number) {
        touched(self, cell);
        if (cells[cell] != expected) return false;
        cells[cell] = number;
        return true;
    }
    void touched(std::uint32_t self, Cell cell) {
        copies[cell] = 0;
        ++tasks[self].cost;
    }

    void step(std::uint32_t self);
};

// The end of promote: a writer waits at line 6, a reader is done.
void end_promote(Task& task) {
    if (task.writer) task.place = Place::l6;
    else task.rest();
}

// Does the next line of a task that is on one.
void Lock::step(std::uint32_t self) {
    using P = Place;
    constexpr std::uint32_t down = ~std::uint32_t{0};
    Task& task = tasks[self];
    switch (task.place) {
    case P::rest: case P::inside: break;

    // writer
    case P::l0_1: queue[(first + waiting++) % most_tasks] = self; task.place = P::l0_2; break;
    case P::l0_2: if (queue[first] == self) task.place = P::l1; break;
    case P::l1: task.previous = read(self, D); task.place = P::l2; break;
    case P::l2: task.current = 1 - task.previous; task.place = P::l3; break;
    case P::l3: write(self, D, task.current); task.place = P::l4; break;
    case P::l4: write(self, Permit, 0); task.place = P::l9; break;
    case P::l6: if (read(self, Permit) == 1) task.enter(Standing::normal); break;

    // promote
    case P::l9: task.x = read(self, X); task.place = P::l10; break;
    case P::l10: if (task.x != 0) task.place = P::l11; else end_promote(task); break;
    case P::l11: if (swap(self, X, task.x, self)) task.place = P::l12; else end_promote(task); break;
    case P::l12: if (read(self, Permit) != 1) task.place = P::l13; else end_promote(task); break;
    case P::l13: if (read(self, C) == 0) task.place = P::l14; else end_promote(task); break;
    case P::l14: if (swap(self, X, self, 0)) task.place = P::l15; else end_promote(task); break;
    case P::l15: write(self, Permit, 1); end_promote(task); break;

    // reader
    case P::l16: add(self, C, 1); task.place = P::l16_1; break;
    case P::l16_1: swap(self, U, 1, 0); task.place = P::l17; break;
    case P::l17: task.d = read(self, D); task.place = P::l18; break;
    case P::l18: task.x = read(self, X); task.place = P::l19; break;
    case P::l19: task.place = task.x == 0 ? P::l21 : P::l20; break;
    case P::l20: swap(self, X, task.x, self); task.place = P::l21; break;
    case P::l21: task.place = read(self, X) == 0 ? P::l22 : P::l22_1; break;
    case P::l22: if (read(self, Gate) == task.d) task.place = P::l22_1; break;
    case P::l22_1: if (read(self, U) == 2) task.place = P::l22_2; else task.enter(Standing::normal); break;
    case P::l22_2: if (read(self, V) == 0) task.enter(Standing::normal); break;

    // upgrade; a task that is turned down stands as before
    case P::l27_1: task.place = read(self, C) > 1 ? P::inside : P::l27_2; break;
    case P::l27_2: write(self, U, 1); task.place = P::l27_3; break;
    case P::l27_3: task.place = read(self, C) > 1 ? P::inside : P::l27_4; break;
    case P::l27_4: write(self, V, 1); task.place = P::l27_5; break;
    case P::l27_5: if (swap(self, U, 1, 2)) task.enter(Standing::upgraded); else task.place = P::inside; break;

    // downgrade
    case P::l25_1: add(self, C, 1); task.place = P::l25_2; break;
    case P::l25_2: write(self, Gate, task.current); task.place = P::l25_3; break;
    case P::l25_3: write(self, X, self); task.enter(Standing::downgraded); break;
    case P::down28_1: write(self, V, 0); task.place = P::down28_2; break;
    case P::down28_2: write(self, U, 0); task.enter(Standing::downgraded); break;

    // leave
    case P::l7: write(self, Gate, task.current); task.place = P::l8; break;
    case P::l8: write(self, X, self); task.place = P::l32_1; break;
    case P::l23: add(self, C, down); task.place = P::l9; break;
    case P::l26_1: add(self, C, down); task.place = P::l32_1; break;
    case P::leave28_1: write(self, V, 0); task.place = P::leave28_2; break;
    case P::leave28_2: write(self, U, 0); task.place = P::l29_2; break;
    case P::l29_2: add(self, C, down); task.place = task.writer ? P::l32_1 : P::l9; break;
    case P::l32_1: first = (first + 1) % most_tasks; --waiting; task.rest(); break;
    }
}

// The first line of a leave.
Place leave_line(const Task& task) {
    if (task.standing == Standing::upgraded) return Place::leave28_1;
    if (!task.writer) return Place::l23;
    return task.standing == Standing::normal ? Place::l7 : Place::l26_1;
}

// ---- the listing ----

// A text of at most seven bytes, which is copied as eight.
struct Short {
    char text[8] = {};
    std::uint8_t size;

    template <std::size_t n>
    constexpr Short(const char (&words)[n]) : size(n - 1) {
        static_assert(n <= sizeof text);
        for (std::size_t i = 0; i < n; ++i) text[i] = words[i];
    }
};

// What stands before a task's cost, by its place.
constexpr Short told[] = {
    "ok - ", "",
    "ok 1 ", "ok 2 ", "ok 10 ", "ok 20 ", "ok 30 ", "ok 40 ", "ok 60 ", "ok 70 ", "ok 80 ",
    "ok 90 ", "ok 100 ", "ok 110 ", "ok 120 ", "ok 130 ", "ok 140 ", "ok 150 ",
    "ok 160 ", "ok 161 ", "ok 170 ", "ok 180 ", "ok 190 ", "ok 200 ", "ok 210 ", "ok 220 ", "ok 221 ", "ok 222 ", "ok 230 ",
    "ok 251 ", "ok 252 ", "ok 253 ", "ok 261 ", "ok 271 ", "ok 272 ", "ok 273 ", "ok 274 ", "ok 275 ",
    "ok 281 ", "ok 282 ", "ok 281 ", "ok 282 ", "ok 292 ", "ok 321 ",
};
static_assert(std::size(told) == std::size_t(Place::l32_1) + 1);

// Inside the right is told.
constexpr Short told_reading = "ok r ";
constexpr Short told_writing = "ok w ";

const Short& told_of(const Task& task) {
    if (task.place != Place::inside) return told[std::size_t(task.place)];
    return task.may_write() ? told_writing : told_reading;
}

constexpr std::size_t line_room = 64;             // what a line of the listing needs beside a note

// Bytes for standard output, which go out when there is no room for a line more and at the end.
class Output {
public:
    void make_room(std::size_t size) { if (std::size_t(std::end(bytes) - next) < size) flush(); }
    void put(char byte) { *next++ = byte; }
    void put_bytes(std::string_view text) {
        std::memcpy(next, text.data(), text.size());
        next += text.size();
    }
    void put(std::uint32_t number) { next = std::to_chars(next, std::end(bytes), number).ptr; }
    void put(const Short& words) {
        std::memcpy(next, words.text, sizeof words.text);
        next += words.size;
    }
    void flush() {
        for (const char* from = bytes; from != next;) {
            const ssize_t count = ::write(STDOUT_FILENO, from, std::size_t(next - from));
            if (count < 0) std::exit(1);
            from += count;
        }
        next = bytes;
    }

private:
    char bytes[longest_schedule + line_room];
    char* next = bytes;
};

// ---- a schedule, line by line ----

constexpr std::uint64_t too_large = std::uint64_t{1} << 32;

class Schedule {
public:
    // The text ends in byte 10, be it one that the caller put behind it.
    Schedule(const char* text, const char* text_end, Output& listing) : at(text), end(text_end), out(listing) {}

    void run() {
        while (at != end) {
            ++number;
            if (*at == '\n') ++at;
            else line();
        }
    }

private:
    const char* at;
    const char* end;
    Output& out;
    std::uint32_t number = 0;
    Lock lock;

    void line() {
        out.make_room(line_room);
        out.put(number);
        out.put(' ');
        switch (*at++) {
        case '#': return note();
        case 'O': return open();
        case 'E': return begin();
        case 'S': return advance();
        case 'U': return upgrade();
        case 'D': return downgrade();
        case 'L': return leave();
        case 'R': return read();
        case 'P': return put();
        default: return refuse_line(40);
        }
    }

    // Reading fields: each asks for the byte before it, and all leave `at` where they found something else.

    const char* line_end() const { return static_cast<const char*>(std::memchr(at, '\n', std::size_t(end - at))); }

    bool letter(char& byte) {
        if (at[0] != ' ' || at[1] == '\n') return false;
        byte = at[1];
        at += 2;
        return true;
    }

    // Digits with no leading zero. A number of more than 32 bits is kept as `too_large`.
    bool digits(std::uint64_t& value) {
        if (*at != ' ') return false;
        const char* const front = ++at;
        value = 0;
        for (; *at >= '0' && *at <= '9'; ++at) {
            value = value * 10 + std::uint64_t(*at - '0');
            if (value > too_large) value = too_large;
        }
        return at != front && (*front != '0' || at == front + 1);
    }

    bool done() {
        if (*at != '\n') return false;
        ++at;
        return true;
    }

    // Answers. `at` is behind the line, but for refuse_line and note.

    void refuse_line(std::uint32_t why) {
        at = line_end() + 1;
        refuse(why);
    }
    void refuse(std::uint32_t why) {
        out.put("no ");
        out.put(why);
        out.put('\n');
    }
    void note() {
        const char* const from = at - 1;
        at = line_end() + 1;
        const std::size_t size = std::size_t(at - from);
        out.make_room(size);
        out.put_bytes({from, size});
    }
    void tell(const Task& task) {
        out.put(told_of(task));
        out.put(task.cost);
    }
    void move(std::uint32_t self) {
        lock.step(self);
        tell(lock.tasks[self]);
        out.put('\n');
    }
    void start(std::uint32_t self, Place line) {
        lock.tasks[self].place = line;
        move(self);
    }

    // The question that every call but open asks first, on the lock and on the task; 0 where all is well.
    std::uint32_t ask_task(std::uint64_t task) const {
        if (lock.task_count == 0) return 10;
        return task < 1 || task > lock.task_count ? 20 : 0;
    }
    // The same, and that the task is inside.
    std::uint32_t ask_inside(std::uint64_t task) const {
        if (const std::uint32_t why = ask_task(task)) return why;
        return lock.tasks[task].place == Place::inside ? 0 : 24;
    }

    // The calls.

    void open() {
        char memory, queue;
        if (!letter(memory) || (memory != 'w' && memory != 'p')) return refuse_line(41);
        if (!letter(queue) || (queue != 'r' && queue != 'm')) return refuse_line(41);
        if (*at != ' ') return refuse_line(41);
        const std::string_view roles(at + 1, std::size_t(line_end() - at - 1));
        if (roles.empty() || roles.find(' ') != roles.npos) return refuse_line(41);
        at = roles.data() + roles.size() + 1;

        if (lock.task_count != 0) return refuse(11);
        if (roles.size() > most_tasks) return refuse(12);
        if (roles.find_first_not_of("RW") != roles.npos) return refuse(13);
        if (memory == 'p' && roles.size() > packed_tasks) return refuse(14);
        for (const char role : roles) lock.tasks[++lock.task_count].writer = role == 'W';
        out.put("ok ");
        out.put(lock.task_count);
        out.put('\n');
    }

    // The one field of a call, a task. False where the line is refused by that.
    bool task_alone(std::uint64_t& self) {
        if (!digits(self) || !done()) return refuse_line(41), false;
        if (self >= too_large) return refuse(42), false;
        return true;
    }
    void begin() {
        std::uint64_t self;
        if (!task_alone(self)) return;
        if (const std::uint32_t why = ask_task(self)) return refuse(why);
        Task& task = lock.tasks[self];
        if (task.place != Place::rest) return refuse(21);
        task.cost = task.upgrades = 0;
        start(std::uint32_t(self), task.writer ? Place::l0_1 : Place::l16);
    }
    void advance() {
        std::uint64_t self;
        if (!task_alone(self)) return;
        if (const std::uint32_t why = ask_task(self)) return refuse(why);
        if (lock.tasks[self].place <= Place::inside) return refuse(23);
        move(std::uint32_t(self));
    }
    void upgrade() {
        std::uint64_t self;
        if (!task_alone(self)) return;
        if (const std::uint32_t why = ask_inside(self)) return refuse(why);
        Task& task = lock.tasks[self];
        if (task.may_write()) return refuse(26);
        if (task.upgrades >= most_upgrades) return refuse(29);
        ++task.upgrades;
        start(std::uint32_t(self), Place::l27_1);
    }
    void downgrade() {
        std::uint64_t self;
        if (!task_alone(self)) return;
        if (const std::uint32_t why = ask_inside(self)) return refuse(why);
        const Task& task = lock.tasks[self];
        if (!task.may_write()) return refuse(26);
        start(std::uint32_t(self), task.standing == Standing::upgraded ? Place::down28_1 : Place::l25_1);
    }
    void leave() {
        std::uint64_t self;
        if (!task_alone(self)) return;
        if (const std::uint32_t why = ask_inside(self)) return refuse(why);
        start(std::uint32_t(self), leave_line(lock.tasks[self]));
    }
    void read() {
        std::uint64_t task, row;
        if (!digits(task) || !digits(row) || !done()) return refuse_line(41);
        if (task >= too_large || row >= too_large) return refuse(42);
        if (const std::uint32_t why = ask_inside(task)) return refuse(why);
        if (row >= rows) return refuse(30);
        tell(lock.tasks[task]);
        out.put(' ');
        if (lock.table[row] == 0) out.put("absent");
        else out.put(lock.table[row]);
        out.put('\n');
    }
    void put() {
        std::uint64_t task, row, thickness;
        if (!digits(task) || !digits(row) || !digits(thickness) || !done()) return refuse_line(41);
        if (task >= too_large || row >= too_large || thickness >= too_large) return refuse(42);
        if (const std::uint32_t why = ask_inside(task)) return refuse(why);
        if (!lock.tasks[task].may_write()) return refuse(26);
        if (row >= rows) return refuse(30);
        if (thickness < 1 || thickness > thickest) return refuse(31);
        lock.table[row] = std::uint32_t(thickness);
        tell(lock.tasks[task]);
        out.put('\n');
    }
};

// All of standard input, as far as it fits into `size` bytes.
std::size_t read_all(char* bytes, std::size_t size) {
    std::size_t count = 0;
    while (count < size) {
        const ssize_t more = ::read(STDIN_FILENO, bytes + count, size - count);
        if (more < 0) std::exit(1);
        if (more == 0) break;
        count += std::size_t(more);
    }
    return count;
}

}  // namespace

int main() {
    char input[longest_schedule + 1];             // one byte more, to see that it is too long, or for byte 10
    Output output;
    std::size_t size = read_all(input, sizeof input);
    if (size > longest_schedule) {
        output.put_bytes("0 no 43\n");
    } else {
        if (size > 0 && input[size - 1] != '\n') input[size++] = '\n';
        Schedule(input, input + size, output).run();
    }
    output.flush();
}
