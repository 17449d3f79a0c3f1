// Prints what standing_sheet prints, with QuantLib's dates, calendars, schedules and day counts, and works everything
// out anew after each notice.
//
//     g++ -O2 -std=c++17 quantlib.cpp -lQuantLib
//
// QuantLib's dates begin in 1901, and its TARGET is T only from 2002 on: inputs have to keep to these years. Where they do not, it
// stops with QuantLib's message, or prints other lines.

#include <ql/time/calendars/nullcalendar.hpp>
#include <ql/time/calendars/target.hpp>
#include <ql/time/daycounters/actual360.hpp>
#include <ql/time/schedule.hpp>

#include <algorithm>
#include <cstdint>
#include <cstdio>
#include <initializer_list>
#include <iostream>
#include <iterator>
#include <map>
#include <string>
#include <string_view>
#include <utility>
#include <vector>

using namespace QuantLib;
using Number = std::uint64_t;

namespace {

constexpr std::size_t longest_input = 65'536, longest_line = 100, most_digits = 12;
constexpr std::size_t most_entries = 200, most_bonds = 32, most_rolls = 400, most_rolls_of_bond = 100;
constexpr Integer reach = 30, window = 60;
constexpr int amended = 9;

// Why a line is not granted.
enum Refusal {
    OutOfRange = 1,
    BadDays = 2,
    Live = 3,
    NotLive = 4,
    ManyRolls = 5,
    SheetFull = 6,
    SameDay = 11,
    WrongState = 12,
    NotEntered = 13,
    EntriesFull = 14,
    NoGoodDay = 20,
    NoFixing = 21,
    BadLine = 50,
    TooLong = 51,
};

void refuse_if(bool wrong, Refusal refusal) {
    if (wrong)
        throw refusal;
}

// T with days that notices have closed or opened. The codes are kept beside QuantLib's calendar, which knows of none.
class AmendedCalendar {
  public:
    const Calendar &days() const { return days_; }

    int code(const Date &day) const {
        const auto entry = entries_.find(day);
        return entry == entries_.end() ? layer(day) : entry->second.code;
    }

    bool is_entered(const Date &day) const { return entries_.count(day) != 0; }
    std::size_t entry_count() const { return entries_.size(); }

    void enter(const Date &day, int code) {
        // As long as it is not entered, a day is what it is in T.
        const auto entry = entries_.try_emplace(day, Entry{days_.isBusinessDay(day), code}).first;
        entry->second.code = code;
        show(day, code == 0);
    }

    void restore(const Date &day) {
        const auto entry = entries_.find(day);
        show(day, entry->second.good_in_t);
        entries_.erase(entry);
    }

  private:
    struct Entry {
        bool good_in_t;
        int code;
    };

    // The layer of T that closes a day that is not entered, or 0.
    int layer(const Date &day) const {
        if (days_.isBusinessDay(day))
            return 0;
        if (days_.isWeekend(day.weekday()))
            return 1;
        const auto is = [&](Month month, Integer of_month) {
            return day.month() == month && day.dayOfMonth() == of_month;
        };
        return is(January, 1) || is(May, 1) || is(December, 25) || is(December, 26) ? 2 : 3;
    }

    void show(const Date &day, bool good) {
        if (good)
            days_.removeHoliday(day);
        else
            days_.addHoliday(day);
    }

    Calendar days_ = TARGET();
    std::map<Date, Entry> entries_;
};

// A bond's fields as they are typed.
struct Terms {
    Number number;
    Date effective, maturity;
    Number months, stub, mark, lag, face, rate;

    void check() const {
        const bool in_range = 1 <= number && number <= 999'999 &&
                              (months == 1 || months == 3 || months == 6 || months == 12) && stub <= 3 && mark <= 1 &&
                              lag <= 10 && 1 <= face && face <= 100'000'000'000 && rate <= 100'000;
        refuse_if(!in_range, OutOfRange);
        refuse_if(maturity.year() > 2198 || maturity <= effective, BadDays);
    }

    std::vector<Date> rolls() const {
        const bool backward = stub <= 1, is_long = stub == 1 || stub == 3;
        const Schedule schedule(effective, maturity, Period(Integer(months), Months), NullCalendar(), Unadjusted,
                                Unadjusted, backward ? DateGeneration::Backward : DateGeneration::Forward, mark == 1);
        std::vector<Date> dates = schedule.dates();
        const bool has_stub = !schedule.isRegular(backward ? 1 : dates.size() - 1);
        // QuantLib's stubs are short: a long one lacks the date beside it.
        if (has_stub && is_long && dates.size() > 2)
            dates.erase(backward ? dates.begin() + 1 : dates.end() - 2);
        refuse_if(dates.size() > most_rolls_of_bond, ManyRolls);
        return dates;
    }

    // The interest for so many days, to the nearest minor unit, halves going up.
    Number amount(Date::serial_type days) const {
        const auto product = static_cast<unsigned __int128>(face) * rate * days;
        return static_cast<Number>((product + 18'000'000) / 36'000'000);
    }
};

// A roll on a calendar, with the first and the last day on which it stands; a null date is no fixing.
struct Roll {
    Date adjusted, fixing, low, high;
};

struct Payment {
    Date date, fixing;
    Date::serial_type days;
    Number amount;

    bool operator!=(const Payment &other) const {
        return date != other.date || fixing != other.fixing || days != other.days || amount != other.amount;
    }
};

// What a calendar makes of a bond.
struct BondSchedule {
    std::vector<Roll> rolls;
    std::vector<Payment> payments;

    // How many rolls stand on one of the days.
    std::size_t rolls_on(const std::vector<Date> &days) const {
        return std::count_if(rolls.begin(), rolls.end(), [&](const Roll &roll) {
            return std::any_of(days.begin(), days.end(),
                               [&](const Date &day) { return roll.low <= day && day <= roll.high; });
        });
    }
};

// A bond with its unadjusted rolls, which no notice alters.
struct Bond {
    Terms terms;
    std::vector<Date> rolls;

    static Roll roll(const Calendar &calendar, const Date &unadjusted, Integer lag) {
        const Date adjusted = calendar.adjust(unadjusted, ModifiedFollowing);
        refuse_if(unadjusted - adjusted > reach, NoGoodDay);
        Date fixing;
        if (lag > 0) {
            fixing = calendar.advance(adjusted, -lag, Days);
            refuse_if(adjusted - fixing > window, NoFixing);
        }
        const Date low = std::min(unadjusted, adjusted);
        const Date high = adjusted < unadjusted ? Date::endOfMonth(unadjusted) : adjusted;
        return {adjusted, fixing, lag > 0 ? std::min(low, fixing) : low, high};
    }

    // Works out the whole schedule; refused for the first roll that fails.
    BondSchedule schedule(const Calendar &calendar) const {
        BondSchedule result;
        result.rolls.reserve(rolls.size());
        result.payments.reserve(rolls.size() - 1);
        for (std::size_t i = 0; i < rolls.size(); ++i)
            result.rolls.push_back(roll(calendar, rolls[i], i + 1 == rolls.size() ? 0 : Integer(terms.lag)));
        const Actual360 counter;
        for (std::size_t k = 1; k < rolls.size(); ++k) {
            const Roll &from = result.rolls[k - 1], &to = result.rolls[k];
            const auto days = counter.dayCount(from.adjusted, to.adjusted);
            result.payments.push_back({to.adjusted, from.fixing, days, terms.amount(days)});
        }
        return result;
    }
};

// A letter with the days that it amends.
struct Notice {
    char letter;
    std::vector<Date> days;
};

// A payment that altered, with the code of the old date after the notice and that of the new date before it.
struct Change {
    Number bond;
    std::size_t payment;
    Payment was, becomes;
    int closes_old, closed_new;
};

// What a granted notice comes to.
struct Effect {
    std::size_t rolls = 0;
    std::vector<Change> changes;
};

// It keeps no schedule: after each notice it works every one out whole, on the calendar before it and after it.
class Sheet {
  public:
    std::size_t enter(const Terms &terms) {
        terms.check();
        refuse_if(bonds_.count(terms.number) != 0, Live);
        Bond bond{terms, terms.rolls()};
        std::size_t rolls = bond.rolls.size();
        for (const auto &[number, live] : bonds_)
            rolls += live.rolls.size();
        refuse_if(bonds_.size() == most_bonds || rolls > most_rolls, SheetFull);
        bond.schedule(calendar_.days());
        return bonds_.emplace(terms.number, std::move(bond)).first->second.rolls.size();
    }

    void retire(Number number) { refuse_if(bonds_.erase(number) == 0, NotLive); }

    Effect amend(const Notice &notice) {
        check(notice);
        const std::vector<BondSchedule> before = schedules();
        std::vector<Former> former;
        for (const Date &day : notice.days)
            former.push_back({day, calendar_.code(day), calendar_.is_entered(day)});
        apply(notice);
        std::vector<BondSchedule> after;
        try {
            after = schedules();
        } catch (Refusal) {
            for (const Former &was : former)
                put_back(was);
            throw;
        }
        return compare(notice, former, before, after);
    }

  private:
    // What a day of a notice was before it.
    struct Former {
        Date day;
        int code;
        bool is_entered;
    };

    void check_good(const Date &day, bool good) const {
        refuse_if(calendar_.days().isBusinessDay(day) != good, WrongState);
    }

    // Refuses what the calendar does not allow.
    void check(const Notice &notice) const {
        const auto &days = notice.days;
        switch (notice.letter) {
        case 'D':
            check_good(days[0], true);
            break;
        case 'C':
            check_good(days[0], false);
            break;
        case 'M':
            refuse_if(days[0] == days[1], SameDay);
            check_good(days[0], false);
            check_good(days[1], true);
            break;
        default:
            refuse_if(!calendar_.is_entered(days[0]), NotEntered);
        }
        const auto is_new = [&](const Date &day) { return !calendar_.is_entered(day); };
        const std::size_t more = std::count_if(days.begin(), days.end(), is_new);
        refuse_if(calendar_.entry_count() + more > most_entries, EntriesFull);
    }

    void apply(const Notice &notice) {
        const auto &days = notice.days;
        switch (notice.letter) {
        case 'D':
            calendar_.enter(days[0], amended);
            break;
        case 'C':
            calendar_.enter(days[0], 0);
            break;
        case 'M':
            calendar_.enter(days[0], 0);
            calendar_.enter(days[1], amended);
            break;
        default:
            calendar_.restore(days[0]);
        }
    }

    void put_back(const Former &was) {
        if (was.is_entered)
            calendar_.enter(was.day, was.code);
        else
            calendar_.restore(was.day);
    }

    // The schedules of all bonds, by the bonds' numbers.
    std::vector<BondSchedule> schedules() const {
        std::vector<BondSchedule> result;
        result.reserve(bonds_.size());
        for (const auto &[number, bond] : bonds_)
            result.push_back(bond.schedule(calendar_.days()));
        return result;
    }

    int code_before(const std::vector<Former> &former, const Date &day) const {
        for (const Former &was : former)
            if (was.day == day)
                return was.code;
        return calendar_.code(day);
    }

    Effect compare(const Notice &notice, const std::vector<Former> &former, const std::vector<BondSchedule> &before,
                   const std::vector<BondSchedule> &after) const {
        Effect effect;
        std::size_t at = 0;
        for (const auto &[number, bond] : bonds_) {
            const auto &old_payments = before[at].payments, &new_payments = after[at].payments;
            effect.rolls += before[at].rolls_on(notice.days);
            for (std::size_t i = 0; i < old_payments.size(); ++i) {
                const Payment &was = old_payments[i], &becomes = new_payments[i];
                if (was != becomes)
                    effect.changes.push_back(
                        {number, i + 1, was, becomes, calendar_.code(was.date), code_before(former, becomes.date)});
            }
            ++at;
        }
        return effect;
    }

    AmendedCalendar calendar_;
    std::map<Number, Bond> bonds_;
};

// The fields of a line, after its letter.
class Fields {
  public:
    explicit Fields(std::string_view rest) : rest_(rest) {}

    Number number() {
        const std::string_view text = field();
        const bool zero_first = text.size() > 1 && text[0] == '0';
        refuse_if(text.empty() || zero_first || text.size() > most_digits, BadLine);
        return digits(text);
    }

    Date date() {
        const std::string_view text = field();
        refuse_if(text.size() != 10 || text[4] != '-' || text[7] != '-', BadLine);
        const auto year = Year(digits(text.substr(0, 4)));
        const auto month = Integer(digits(text.substr(5, 2))), day = Integer(digits(text.substr(8, 2)));
        refuse_if(year < 1900 || year > 2199 || month < 1 || month > 12 || day < 1, BadLine);
        refuse_if(day > Date::endOfMonth(Date(1, Month(month), year)).dayOfMonth(), BadLine);
        return {day, Month(month), year};
    }

    void end() const { refuse_if(!rest_.empty(), BadLine); }

  private:
    // The bytes after one space, up to the next.
    std::string_view field() {
        refuse_if(rest_.empty() || rest_[0] != ' ', BadLine);
        const std::size_t stop = std::min(rest_.find(' ', 1), rest_.size());
        const std::string_view text = rest_.substr(1, stop - 1);
        rest_.remove_prefix(stop);
        return text;
    }

    static Number digits(std::string_view text) {
        Number value = 0;
        for (const char c : text) {
            refuse_if(c < '0' || c > '9', BadLine);
            value = 10 * value + Number(c - '0');
        }
        return value;
    }

    std::string_view rest_;
};

Terms read_terms(Fields &fields) {
    Terms terms;
    terms.number = fields.number();
    terms.effective = fields.date();
    terms.maturity = fields.date();
    for (Number *field : {&terms.months, &terms.stub, &terms.mark, &terms.lag, &terms.face, &terms.rate})
        *field = fields.number();
    fields.end();
    return terms;
}

Notice read_notice(char letter, Fields &fields) {
    Notice notice{letter, {}};
    switch (letter) {
    case 'M':
        notice.days = {fields.date(), fields.date()};
        break;
    case 'D':
    case 'C':
    case 'W':
        notice.days = {fields.date()};
        break;
    default:
        throw BadLine;
    }
    fields.end();
    return notice;
}

std::string written(const Date &day) {
    if (day == Date())
        return "-";
    char text[16];
    std::snprintf(text, sizeof text, "%04d-%02d-%02d", int(day.year()), int(day.month()), int(day.dayOfMonth()));
    return text;
}

// A line of words with a space between.
void print_line(std::string &out, std::initializer_list<std::string> words) {
    for (const std::string &word : words) {
        out += word;
        out += &word == words.end() - 1 ? '\n' : ' ';
    }
}

void print(std::string &out, const Change &change) {
    const Payment &was = change.was, &becomes = change.becomes;
    print_line(out, {std::to_string(change.bond), std::to_string(change.payment), written(was.date),
                     written(becomes.date), written(was.fixing), written(becomes.fixing), std::to_string(was.days),
                     std::to_string(becomes.days), std::to_string(was.amount), std::to_string(becomes.amount),
                     std::to_string(change.closes_old), std::to_string(change.closed_new)});
}

std::string word_of(char letter) {
    switch (letter) {
    case 'D':
        return "declared";
    case 'C':
        return "cancelled";
    case 'M':
        return "moved";
    default:
        return "withdrawn";
    }
}

// Does what a line asks for, and prints what became of it, unless it is refused.
void answer(Sheet &sheet, std::string_view line, std::string &out) {
    refuse_if(line.size() > longest_line, BadLine);
    const char letter = line[0];
    Fields fields(line.substr(1));
    if (letter == 'B') {
        const Terms terms = read_terms(fields);
        print_line(out, {"entered", std::to_string(terms.number), std::to_string(sheet.enter(terms))});
    } else if (letter == 'X') {
        const Number number = fields.number();
        fields.end();
        sheet.retire(number);
        print_line(out, {"retired", std::to_string(number)});
    } else {
        const Effect effect = sheet.amend(read_notice(letter, fields));
        print_line(out, {word_of(letter), std::to_string(effect.rolls), std::to_string(effect.changes.size())});
        for (const Change &change : effect.changes)
            print(out, change);
    }
}

std::string report(std::string_view input) {
    std::string out = "convention M\n";
    if (input.size() > longest_input) {
        print_line(out, {"no", std::to_string(TooLong), "0"});
        return out;
    }
    Sheet sheet;
    for (std::size_t number = 1; !input.empty(); ++number) {
        const std::size_t stop = std::min(input.find('\n'), input.size());
        const std::string_view line = input.substr(0, stop);
        input.remove_prefix(std::min(stop + 1, input.size()));
        if (line.empty() || (line[0] == '#' && line.size() <= longest_line))
            continue;
        try {
            answer(sheet, line, out);
        } catch (Refusal refusal) {
            print_line(out, {"no", std::to_string(refusal), std::to_string(number)});
        }
    }
    return out;
}

} // namespace

int main() {
    try {
        const std::string input{std::istreambuf_iterator<char>(std::cin), std::istreambuf_iterator<char>()};
        std::cout << report(input);
        return 0;
    } catch (const std::exception &error) {
        std::cerr << error.what() << '\n';
        return 1;
    }
}
