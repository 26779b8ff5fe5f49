// Comes in: a function. Goes out: the same without calls that only say something to the optimizer, and without ranges at calls. What
// such a call promised is no longer promised.
#include "Lower.h"

using namespace llvm;

namespace hkv {

namespace {

bool isDropped(const IntrinsicInst &I) {
  switch (I.getIntrinsicID()) {
  case Intrinsic::lifetime_start:
  case Intrinsic::lifetime_end:
  case Intrinsic::experimental_noalias_scope_decl:
  case Intrinsic::donothing:
  case Intrinsic::sideeffect:
  case Intrinsic::var_annotation:
  case Intrinsic::codeview_annotation:
  case Intrinsic::prefetch:
  case Intrinsic::pseudoprobe:
    return true;
  case Intrinsic::invariant_end:
    return true;
  case Intrinsic::assume: // with bundles: promises about pointers
    return I.getNumOperandBundles() != 0 || isa<UndefValue>(I.getArgOperand(0));
  default:
    return false;
  }
}

// Calls that give their first operand back.
bool isIdentity(const IntrinsicInst &I) {
  switch (I.getIntrinsicID()) {
  case Intrinsic::annotation:
  case Intrinsic::ptr_annotation:
  case Intrinsic::expect_with_probability:
  case Intrinsic::ssa_copy:
  case Intrinsic::launder_invariant_group:
  case Intrinsic::strip_invariant_group:
    return true;
  default:
    return false;
  }
}

// `asm` of no text, with one number in and the same out (OPTIMIZER_HIDE_VAR of a kernel).
bool isEmptyMove(const CallBase &Call) {
  auto *Asm = dyn_cast<InlineAsm>(Call.getCalledOperand());
  if (!Asm || !Asm->getAsmString().empty() || Call.arg_size() != 1 || Call.getType() != Call.getArgOperand(0)->getType())
    return false;
  if (!Call.getType()->isIntegerTy())
    return false;
  InlineAsm::ConstraintInfoVector Constraints = Asm->ParseConstraints();
  unsigned Outputs = 0, Tied = 0;
  for (const InlineAsm::ConstraintInfo &Info : Constraints) {
    if (Info.Type == InlineAsm::isOutput)
      Outputs += !Info.isIndirect;
    else if (Info.Type == InlineAsm::isInput)
      Tied += Info.hasMatchingInput() || (Info.Codes.size() == 1 && Info.Codes[0] == "0");
    else if (Info.Type == InlineAsm::isClobber && Info.Codes.size() == 1 && Info.Codes[0] == "{memory}")
      return false;
  }
  return Outputs == 1 && Tied == 1;
}

bool dropCall(CallBase &Call, Report &R) {
  if (auto *I = dyn_cast<IntrinsicInst>(&Call)) {
    if (I->getIntrinsicID() == Intrinsic::invariant_start) {
      for (User *U : make_early_inc_range(I->users())) // the `invariant.end` that name it
        cast<Instruction>(U)->eraseFromParent();
      R.replaced(Call, nameOf(Call), "gone");
      Call.eraseFromParent();
      return true;
    }
    if (isDropped(*I)) {
      R.replaced(Call, nameOf(Call), "gone");
      Call.eraseFromParent();
      return true;
    }
    if (isIdentity(*I)) {
      R.replaced(Call, nameOf(Call), "its operand");
      replaceBy(Call, I->getArgOperand(0));
      return true;
    }
  } else if (isEmptyMove(Call)) {
    R.replaced(Call, "asm without a text", "its operand");
    replaceBy(Call, Call.getArgOperand(0));
    return true;
  }
  if (Call.hasMetadata(LLVMContext::MD_range)) {
    R.replaced(Call, "!range at a call", "gone");
    Call.setMetadata(LLVMContext::MD_range, nullptr);
    return true;
  }
  return false;
}

} // namespace

bool dropHints(Function &F, Report &R) {
  bool Changed = false;
  SmallVector<WeakVH, 32> Calls;
  for (Instruction &I : instructions(F))
    if (isa<CallBase>(I) && !isa<DbgInfoIntrinsic>(I))
      Calls.push_back(&I);
  for (WeakVH &Handle : Calls)
    if (Handle)
      Changed |= dropCall(*cast<CallBase>(Handle), R);
  return Changed;
}

} // namespace hkv
