// openfst.cc: the part of the job that OpenFst does.
#include "openfst.h"

extern "C" {
#include "plain_policy.h"
}

#include <fst/fstlib.h>

struct automaton {
    fst::StdVectorFst machine;
};

namespace {

using fst::StdArc;
using Weight = StdArc::Weight;

automaton *with_states(unsigned count, unsigned start)
{
    auto *made = new automaton;
    for (unsigned s = 0; s < count; s++)
        made->machine.SetFinal(made->machine.AddState(), Weight::One());
    made->machine.SetStart(static_cast<int>(start));
    return made;
}

// Label 0 is OpenFst's empty string, so code c is label c + 1.
void add_arc(automaton *made, unsigned from, unsigned code, unsigned to)
{
    made->machine.AddArc(static_cast<int>(from), StdArc(static_cast<int>(code) + 1, static_cast<int>(code) + 1, Weight::One(), static_cast<int>(to)));
}

}  // namespace

automaton *openfst_of_policy(const uint8_t *bytes, size_t length)
{
    static policy p;
    static images image;
    if (read_policy(bytes, length, &p) != 0)
        return nullptr;
    fill_images(&p, image);
    automaton *made = with_states(p.valuations, p.start);
    for (unsigned v = 0; v < p.valuations; v++)
        for (unsigned c = 0; c < p.width; c++)
            for (uint64_t left = image[v][c]; left != 0; left &= left - 1)
                add_arc(made, v, c, static_cast<unsigned>(__builtin_ctzll(left)));
    return made;
}

automaton *openfst_of_book(const uint8_t *book, size_t length)
{
    unsigned states = book[11], width = static_cast<unsigned>((length - 12) / states);
    automaton *made = with_states(states, 0);
    for (unsigned s = 0; s < states; s++)
        for (unsigned c = 0; c < width; c++)
            if (book[12 + s * width + c] != 0)
                add_arc(made, s, c, book[12 + s * width + c] - 1u);
    return made;
}

void openfst_free(automaton *made) { delete made; }

unsigned openfst_states(const automaton *policy)
{
    fst::StdVectorFst made;
    fst::Determinize(policy->machine, &made);
    fst::Minimize(&made);
    return static_cast<unsigned>(made.NumStates());
}

int openfst_same(const automaton *first, const automaton *second) { return fst::Equivalent(first->machine, second->machine); }

int openfst_equal(const automaton *first, const automaton *second) { return fst::Equal(first->machine, second->machine); }
