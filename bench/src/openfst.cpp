// The calls that are timed, into OpenFst.
#include <cstdint>
#include <sstream>
#include <streambuf>
#include <string>
#include <vector>

#include <fst/fstlib.h>
#include <fst/script/compile-impl.h>
#include <fst/script/print-impl.h>

using Machine = fst::StdVectorFst;

// Bytes that are read where they are.
struct Lent : std::streambuf {
  Lent(const char *bytes, size_t count) {
    char *at = const_cast<char *>(bytes);
    setg(at, at, at + count);
  }
};

extern "C" {

// A machine of so many states and no links. The number of the start is -1 where there is none.
Machine *openfst_new(uint32_t states, int32_t start) {
  auto *machine = new Machine;
  for (uint32_t s = 0; s < states; ++s) machine->AddState();
  machine->SetStart(start);
  return machine;
}

void openfst_link(Machine *machine, uint32_t source, uint32_t input, uint32_t output, float weight,
                  uint32_t next) {
  machine->AddArc(source, fst::StdArc(input, output, weight, next));
}

void openfst_end(Machine *machine, uint32_t state, float weight) {
  machine->SetFinal(state, weight);
}

// Works the properties out that the queue is chosen by, so that no call that is timed has to.
void openfst_ready(Machine *machine) { machine->Properties(fst::kFstProperties, true); }

void openfst_free(Machine *machine) { delete machine; }

// How many distances there are.
uint32_t openfst_distances(const Machine *machine) {
  std::vector<fst::TropicalWeight> distance;
  fst::ShortestDistance(*machine, &distance);
  return distance.size();
}

Machine *openfst_list(const Machine *machine, int32_t n) {
  auto *list = new Machine;
  fst::ShortestPath(*machine, list, n);
  return list;
}

uint32_t openfst_readings(const Machine *list) {
  return list->Start() < 0 ? 0 : list->NumArcs(list->Start());
}

// A copy that shares nothing.
Machine *openfst_copy(const Machine *machine) {
  return new Machine(static_cast<const fst::Fst<fst::StdArc> &>(*machine));
}

// Sorts the links of each state by output label or by input label.
void openfst_sort(Machine *machine, bool by_output) {
  if (by_output) {
    fst::ArcSort(machine, fst::OLabelCompare<fst::StdArc>());
  } else {
    fst::ArcSort(machine, fst::ILabelCompare<fst::StdArc>());
  }
}

// What two machines both allow, of the states that the start reaches; of those on ways to a final state alone if connected.
Machine *openfst_compose(const Machine *first, const Machine *second, bool connected) {
  auto *both = new Machine;
  fst::Compose(*first, *second, both, fst::ComposeOptions(connected));
  return both;
}

// The machine up to a node, which is final at weight 0 and has no links.
Machine *openfst_up_to(const Machine *machine, int node) {
  auto *part = new Machine;
  part->ReserveStates(node + 1);
  for (int s = 0; s <= node; ++s) part->AddState();
  for (int s = 0; s < node; ++s) {
    part->ReserveArcs(s, machine->NumArcs(s));
    for (fst::ArcIterator<Machine> arcs(*machine, s); !arcs.Done(); arcs.Next()) {
      part->AddArc(s, arcs.Value());
    }
  }
  part->SetFinal(node, fst::TropicalWeight::One());
  part->SetStart(machine->Start());
  return part;
}

// The machine from a node on, which is its start.
Machine *openfst_from(const Machine *machine, int node) {
  auto *part = new Machine;
  part->ReserveStates(machine->NumStates() - node);
  for (int s = node; s < machine->NumStates(); ++s) part->AddState();
  for (int s = node; s < machine->NumStates(); ++s) {
    part->ReserveArcs(s - node, machine->NumArcs(s));
    for (fst::ArcIterator<Machine> arcs(*machine, s); !arcs.Done(); arcs.Next()) {
      fst::StdArc arc = arcs.Value();
      arc.nextstate -= node;
      part->AddArc(s - node, arc);
    }
    part->SetFinal(s - node, machine->Final(s));
  }
  part->SetStart(0);
  return part;
}

uint32_t openfst_links(const Machine *machine) {
  uint32_t links = 0;
  for (int s = 0; s < machine->NumStates(); ++s) links += machine->NumArcs(s);
  return links;
}

bool openfst_equal(const Machine *one, const Machine *other) { return fst::Equal(*one, *other, 0.0f); }

// What fstcompile does with --keep_state_numbering, as far as the machine.
Machine *openfst_compile(const char *text, size_t count) {
  Lent lent(text, count);
  std::istream stream(&lent);
  fst::FstCompiler<fst::StdArc> compiler(stream, "text", nullptr, nullptr, nullptr, false, false,
                                         false, true, false);
  return new Machine(compiler.Fst());
}

// What fstprint does with a machine, with the digits that it sets.
std::string *openfst_print(const Machine *machine) {
  std::ostringstream stream;
  stream.precision(9);
  fst::FstPrinter<fst::StdArc> printer(*machine, nullptr, nullptr, nullptr, false, false, "\t");
  printer.Print(stream, "text");
  return new std::string(stream.str());
}

// The bytes of a machine's file, and the machine of such bytes.
std::string *openfst_write(const Machine *machine) {
  std::ostringstream stream;
  machine->Write(stream, fst::FstWriteOptions("file"));
  return new std::string(stream.str());
}

Machine *openfst_read(const char *bytes, size_t count) {
  Lent lent(bytes, count);
  std::istream stream(&lent);
  return Machine::Read(stream, fst::FstReadOptions("file"));
}

const char *openfst_bytes(const std::string *bytes) { return bytes->data(); }

size_t openfst_count(const std::string *bytes) { return bytes->size(); }

void openfst_drop(std::string *bytes) { delete bytes; }
}
