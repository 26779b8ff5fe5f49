// Comes in: a function. Goes out: the same with its volatile and atomic accesses made plain. That is right under the premise that one
// processor runs the handlers, that nothing interrupts them, and that no device sees these variables: the call has to ask for it.
#include "Lower.h"

using namespace llvm;

namespace hkv {

namespace {

bool isBarrier(const Instruction &I) {
  auto *Call = dyn_cast<CallBase>(&I);
  auto *Asm = Call ? dyn_cast<InlineAsm>(Call->getCalledOperand()) : nullptr;
  return Asm && Asm->getAsmString().empty() && Call->arg_size() == 0 && Call->getType()->isVoidTy();
}

bool clearVolatile(Instruction &I) {
  if (auto *Load = dyn_cast<LoadInst>(&I)) {
    bool Was = Load->isVolatile();
    Load->setVolatile(false);
    return Was;
  }
  if (auto *Store = dyn_cast<StoreInst>(&I)) {
    bool Was = Store->isVolatile();
    Store->setVolatile(false);
    return Was;
  }
  if (auto *Copy = dyn_cast<MemIntrinsic>(&I)) {
    bool Was = Copy->isVolatile();
    Copy->setVolatile(ConstantInt::getFalse(I.getContext()));
    return Was;
  }
  return false;
}

} // namespace

bool makePlain(Function &F, FunctionAnalysisManager &FAM, Report &R) {
  bool Changed = false, Atomic = false;
  for (Instruction &I : make_early_inc_range(instructions(F))) {
    if (I.isAtomic()) {
      R.replaced(I, "atomic " + Twine(I.getOpcodeName()), "plain accesses");
      Atomic = true;
    }
    if (clearVolatile(I)) {
      R.replaced(I, "volatile " + Twine(I.getOpcodeName()), "a plain one");
      Changed = true;
    }
    if (isBarrier(I)) {
      R.replaced(I, "a barrier (asm without a text)", "gone");
      I.eraseFromParent();
      Changed = true;
    }
  }
  if (Atomic)
    FAM.invalidate(F, LowerAtomicPass().run(F, FAM));
  return Changed || Atomic;
}

} // namespace hkv
