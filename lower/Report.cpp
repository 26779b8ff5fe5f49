// Comes in: what the parts replaced or left. Goes out: a line each on standard error, with the function, the line of the text and,
// where the text has debug information, the line of the source.
#include "Lower.h"

using namespace llvm;

namespace hkv {

namespace {

constexpr StringRef LineKind = "hkv.line";

// Hears from LLVM's own writer on which line each instruction stands.
class LineNoter : public AssemblyAnnotationWriter {
public:
  void emitInstructionAnnot(const Instruction *I, formatted_raw_ostream &Out) override { Lines[I] = Out.getLine(); }
  DenseMap<const Instruction *, unsigned> Lines;
};

StringRef lineAt(ArrayRef<StringRef> Lines, size_t Line) { return Line < Lines.size() ? Lines[Line].trim() : StringRef(); }

// On which line each function begins.
StringMap<size_t> heads(ArrayRef<StringRef> Lines) {
  StringMap<size_t> Found;
  for (size_t K = 0; K < Lines.size(); ++K)
    if (Lines[K].take_front(7) == "define ")
      Found[Lines[K].split('@').second.take_until([](char C) { return C == '('; })] = K;
  return Found;
}

} // namespace

// The text is printed again, as LLVM writes it. Where the line of the file that stands as far behind the head of its function is the
// line that was printed, it is the instruction's.
void Report::noteLines() {
  auto File = MemoryBuffer::getFile(M.getModuleIdentifier(), /*IsText=*/true);
  if (!File)
    return;
  std::string Text;
  raw_string_ostream Into(Text);
  formatted_raw_ostream Out(Into);
  LineNoter Noter;
  M.print(Out, &Noter);
  Out.flush();
  Into.flush();
  SmallVector<StringRef, 0> Printed, Read;
  StringRef(Text).split(Printed, '\n');
  (*File)->getBuffer().split(Read, '\n');
  StringMap<size_t> PrintedHeads = heads(Printed), ReadHeads = heads(Read);
  for (Function &F : M)
    for (Instruction &I : instructions(F)) {
      size_t There = Noter.Lines.lookup(&I), Line = There - PrintedHeads.lookup(F.getName()) + ReadHeads.lookup(F.getName());
      if (!lineAt(Printed, There).empty() && lineAt(Printed, There) == lineAt(Read, Line))
        noteLine(I, Line + 1);
    }
}

void Report::noteLine(Instruction &I, uint64_t Line) {
  LLVMContext &Context = M.getContext();
  auto *Number = ConstantAsMetadata::get(ConstantInt::get(Type::getInt64Ty(Context), Line));
  I.setMetadata(Context.getMDKindID(LineKind), MDNode::get(Context, Number));
}

void Report::forgetLines() {
  unsigned Kind = M.getContext().getMDKindID(LineKind);
  for (Function &F : M)
    for (Instruction &I : instructions(F))
      I.setMetadata(Kind, nullptr);
}

std::string Report::place(const Instruction &I) const {
  std::string Place = ("in " + I.getFunction()->getName()).str();
  if (MDNode *Line = I.getMetadata(LineKind))
    Place += ", line " + utostr(mdconst::extract<ConstantInt>(Line->getOperand(0))->getZExtValue());
  if (DILocation *Source = I.getDebugLoc().get())
    if (Source->getLine() != 0)
      Place += (" (" + Source->getFilename() + ":" + Twine(Source->getLine()) + ")").str();
  return Place;
}

void Report::say(StringRef Kind, const Twine &Place, const Twine &What, const Twine &How) {
  std::string Line = ("hkv: " + Kind + " " + Place + ": " + What + How).str();
  if (Said.insert(Line).second)
    errs() << Line << "\n";
}

void Report::replacedAt(const Twine &Place, const Twine &What, const Twine &By) {
  ++Replaced;
  say("lowered", Place, What, ", now " + By);
}

void Report::replaced(const Instruction &I, const Twine &What, const Twine &By) { replacedAt(place(I), What, By); }

void Report::replaced(const Function &F, const Twine &What, const Twine &By) {
  replacedAt("in " + F.getName(), What, By);
}

void Report::replaced(const Twine &What, const Twine &By) {
  replacedAt("in the text", What, By);
}

void Report::left(const Instruction &I, const Twine &What, const Twine &Why) {
  ++Left;
  say("left", place(I), What, ": " + Why);
}

void Report::left(const Function &F, const Twine &What, const Twine &Why) {
  ++Left;
  say("left", "in " + F.getName(), What, ": " + Why);
}

void Report::left(const Twine &What, const Twine &Why) {
  ++Left;
  say("left", "in the text", What, ": " + Why);
}

void Report::end() const { errs() << "hkv: " << Replaced << " replaced, " << Left << " left\n"; }

} // namespace hkv
