// Comes in: a module. Goes out: the same with 0, or null, for each `undef` and `poison` that an instruction uses or an initialiser has.
// Each may be any number, and so this one.
#include "Lower.h"

using namespace llvm;

namespace hkv {

namespace {

// The same constant without `undef`; itself where it has none.
Constant *fixed(Constant *C) {
  if (isa<UndefValue>(C)) // poison is one
    return Constant::getNullValue(C->getType());
  auto *Whole = dyn_cast<ConstantAggregate>(C);
  if (!Whole)
    return C;
  SmallVector<Constant *, 16> Parts;
  bool Changed = false;
  for (Value *Part : Whole->operands()) {
    Parts.push_back(fixed(cast<Constant>(Part)));
    Changed |= Parts.back() != Part;
  }
  if (!Changed)
    return C;
  if (auto *Struct = dyn_cast<StructType>(C->getType()))
    return ConstantStruct::get(Struct, Parts);
  if (auto *Array = dyn_cast<ArrayType>(C->getType()))
    return ConstantArray::get(Array, Parts);
  return ConstantVector::get(Parts);
}

bool fixOperands(Instruction &I, Report &R) {
  bool Changed = false;
  for (Use &U : I.operands()) {
    auto *C = dyn_cast<Constant>(U.get());
    Constant *New = C ? fixed(C) : nullptr;
    if (New == C)
      continue;
    R.replaced(I, StringRef(isa<PoisonValue>(C) ? "poison" : "undef") + " in " + I.getOpcodeName(), "0");
    U.set(New);
    Changed = true;
  }
  return Changed;
}

} // namespace

bool fixUndef(Module &M, Report &R) {
  bool Changed = false;
  for (GlobalVariable &G : M.globals())
    if (G.hasInitializer() && fixed(G.getInitializer()) != G.getInitializer()) {
      R.replaced("undef in the initialiser of " + G.getName(), "0");
      G.setInitializer(fixed(G.getInitializer()));
      Changed = true;
    }
  for (Function &F : M)
    for (Instruction &I : instructions(F))
      Changed |= fixOperands(I, R);
  return Changed;
}

} // namespace hkv
