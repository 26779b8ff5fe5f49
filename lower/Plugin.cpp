// The pass `hkv-lower` of opt's pipelines, as hkv-lower<unroll=8;single-processor>. Comes in: a kernel as clang writes it. Goes out: the
// same kernel with what the profile of docs/FORMATS.md lacks replaced by what it has, where there is an equal. It has to be run once.
#include "Lower.h"

using namespace llvm;

namespace hkv {

namespace {

// What was done stays in the text, as metadata, for whoever asks for the premises of a verdict.
void sign(Module &M, const Options &Words) {
  LLVMContext &Context = M.getContext();
  NamedMDNode *Lowered = M.getOrInsertNamedMetadata("hkv.lowered");
  auto Add = [&](const Twine &Text) { Lowered->addOperand(MDNode::get(Context, MDString::get(Context, Text.str()))); };
  if (Lowered->getNumOperands() == 0)
    Add("This text was written by hkv lower, LLVM " LLVM_VERSION_STRING ". It is the text to compile and to link.");
  if (Words.Unroll != 0)
    Add("--unroll " + Twine(Words.Unroll));
  if (Words.SingleProcessor)
    Add("--single-processor: volatile and atomic accesses were made plain");
}

class LowerPass : public PassInfoMixin<LowerPass> {
public:
  explicit LowerPass(Options Words) : Words(Words) {}

  static bool isRequired() { return true; }

  PreservedAnalyses run(Module &M, ModuleAnalysisManager &MAM) {
    auto &FAM = MAM.getResult<FunctionAnalysisManagerModuleProxy>(M).getManager();
    Report R(M);
    R.noteLines();
    if (Words.SingleProcessor)
      errs() << "hkv: premise: one processor runs the handlers, nothing interrupts them, no device sees their variables (--single-processor)\n";
    dropExports(M, R);
    onBodies(M, [&](Function &F) {
      dropHints(F, R);
      if (Words.SingleProcessor)
        makePlain(F, FAM, R);
    });
    takeLocalsApart(M, MAM, FAM, R);
    takeValuesApart(M, FAM, R);
    promoteLocals(M, MAM, R); // of which parts were copied
    takeValuesApart(M, FAM, R);
    fixUndef(M, R);
    onBodies(M, [&](Function &F) {
      expandBits(F, R);
      expandSaturation(F, R);
    });
    widenMemory(M, R);
    dropPromises(M, R);
    tellLeft(M, R);
    R.forgetLines();
    sign(M, Words);
    R.end();
    return PreservedAnalyses::none();
  }

private:
  static void onBodies(Module &M, function_ref<void(Function &)> Act) {
    for (Function &F : M)
      if (!F.isDeclaration())
        Act(F);
  }

  void takeValuesApart(Module &M, FunctionAnalysisManager &FAM, Report &R) {
    onBodies(M, [&](Function &F) {
      bool Changed = splitVectors(F, FAM, R);
      Changed |= expandCopies(F, R);
      Changed |= splitAggregates(F, R);
      Changed |= splitWide(F, R);
      if (Changed)
        FAM.invalidate(F, PreservedAnalyses::none());
    });
  }

  // Inlining brings new locals and loops, and unrolled loops have known indices.
  void takeLocalsApart(Module &M, ModuleAnalysisManager &MAM, FunctionAnalysisManager &FAM, Report &R) {
    promoteLocals(M, MAM, R);
    bool Changed = false;
    onBodies(M, [&](Function &F) { Changed |= unrollLoops(F, FAM, Words.Unroll, R); });
    onBodies(M, [&](Function &F) { Changed |= splitArrays(F, FAM, R); });
    if (Changed)
      promoteLocals(M, MAM, R);
  }

  Options Words;
};

// The words between `<` and `>`, a `;` between them.
bool readOptions(StringRef Text, Options &Words) {
  while (!Text.empty()) {
    auto [Word, Rest] = Text.split(';');
    Text = Rest;
    if (Word == "single-processor")
      Words.SingleProcessor = true;
    else if (!Word.consume_front("unroll=") || Word.getAsInteger(10, Words.Unroll))
      return false;
  }
  return true;
}

bool readPass(StringRef Name, ModulePassManager &Passes, ArrayRef<PassBuilder::PipelineElement>) {
  Options Words;
  if (!Name.consume_front("hkv-lower"))
    return false;
  if (!Name.empty() && !(Name.consume_front("<") && Name.consume_back(">") && readOptions(Name, Words)))
    return false;
  Passes.addPass(LowerPass(Words));
  return true;
}

} // namespace

} // namespace hkv

extern "C" LLVM_ATTRIBUTE_WEAK PassPluginLibraryInfo llvmGetPassPluginInfo() {
  return {LLVM_PLUGIN_API_VERSION, "hkv-lower", "1", [](PassBuilder &Builder) { Builder.registerPipelineParsingCallback(hkv::readPass); }};
}
