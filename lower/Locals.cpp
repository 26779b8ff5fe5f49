// Comes in: a module. Goes out: the same with its locals in registers where SROA takes them apart. A function that such a local is
// handed to, or that takes or gives a struct, is inlined at that call first, since only then all uses of the local are seen.
#include "Lower.h"

using namespace llvm;

namespace hkv {

namespace {

bool isScalar(const Type *T) { return T->isPointerTy() || (T->isIntegerTy() && T->getIntegerBitWidth() <= 64); }

// Whether the profile takes the local as it is: a slot, which is only loaded and stored in its own type.
bool isSlot(const AllocaInst &A) {
  if (!isScalar(A.getAllocatedType()) || A.isArrayAllocation())
    return false;
  return all_of(A.users(), [&](const User *U) {
    if (auto *Load = dyn_cast<LoadInst>(U))
      return Load->getType() == A.getAllocatedType();
    if (auto *Store = dyn_cast<StoreInst>(U))
      return Store->getPointerOperand() == &A && Store->getValueOperand() != &A && Store->getValueOperand()->getType() == A.getAllocatedType();
    return isa<DbgInfoIntrinsic>(U);
  });
}

SmallVector<AllocaInst *, 16> memoryLocals(Function &F) {
  SmallVector<AllocaInst *, 16> Found;
  for (Instruction &I : instructions(F))
    if (auto *A = dyn_cast<AllocaInst>(&I))
      if (!isSlot(*A))
        Found.push_back(A);
  return Found;
}

bool canInline(const CallBase &Call) {
  const Function *Callee = Call.getCalledFunction();
  return Callee && !Callee->isDeclaration() && !Callee->isVarArg() && Callee->getFunctionType() == Call.getFunctionType() && !isRecursive(*Callee);
}

// What the profile has no types for: structs and vectors as parameters or results.
bool passesAggregates(const CallBase &Call) {
  auto IsAggregate = [](const Type *T) { return T->isAggregateType() || T->isVectorTy(); };
  for (unsigned K = 0; K < Call.arg_size(); ++K)
    if (IsAggregate(Call.getArgOperand(K)->getType()) || Call.isByValArgument(K))
      return true;
  return IsAggregate(Call.getType()) && !isa<IntrinsicInst>(Call);
}

// The calls that an address of the local comes to.
void callsOf(Value *Address, SmallSetVector<CallBase *, 16> &Calls, SmallPtrSetImpl<Value *> &Seen) {
  if (!Seen.insert(Address).second)
    return;
  for (User *U : Address->users()) {
    if (auto *Call = dyn_cast<CallBase>(U)) {
      if (!isa<IntrinsicInst>(Call))
        Calls.insert(Call);
    } else if (isa<GetElementPtrInst>(U) || isa<PHINode>(U) || isa<SelectInst>(U))
      callsOf(U, Calls, Seen);
    else if (auto *Store = dyn_cast<StoreInst>(U)) // into another local, of a pointer
      if (Store->getValueOperand() == Address)
        if (auto *Holder = dyn_cast<AllocaInst>(Store->getPointerOperand()))
          for (User *Reader : Holder->users())
            if (auto *Load = dyn_cast<LoadInst>(Reader))
              callsOf(Load, Calls, Seen);
  }
}

SmallSetVector<CallBase *, 16> callsToInline(Function &F) {
  SmallSetVector<CallBase *, 16> Calls;
  SmallPtrSet<Value *, 16> Seen;
  for (AllocaInst *A : memoryLocals(F))
    callsOf(A, Calls, Seen);
  for (Instruction &I : instructions(F))
    if (auto *Call = dyn_cast<CallBase>(&I))
      if (passesAggregates(*Call))
        Calls.insert(Call);
  Calls.remove_if([](CallBase *Call) { return !canInline(*Call); });
  return Calls;
}

void promote(Function &F, FunctionAnalysisManager &FAM) { FAM.invalidate(F, sroaPass().run(F, FAM)); }

// All loads and stores of integers through the address, where nothing else is done with it and each step is constant.
bool plainAccesses(Value &Address, SmallVectorImpl<Instruction *> &Found) {
  return all_of(Address.users(), [&](User *U) {
    if (auto *Step = dyn_cast<GetElementPtrInst>(U))
      return Step->hasAllConstantIndices() && plainAccesses(*Step, Found);
    auto *I = cast<Instruction>(U);
    if (isa<DbgInfoIntrinsic>(I))
      return true;
    if (!isa<LoadInst>(I) && !(isa<StoreInst>(I) && getLoadStorePointerOperand(I) == &Address))
      return false;
    Type *T = getLoadStoreType(I);
    Found.push_back(I);
    return !I->isVolatile() && !I->isAtomic() && T->isIntegerTy() && T->getIntegerBitWidth() <= 64;
  });
}

// Words that overlap keep SROA from taking a local apart: as bytes they do not.
bool splitBytes(AllocaInst &Local) {
  SmallVector<Instruction *, 16> Found;
  if (Local.isArrayAllocation() || !plainAccesses(Local, Found) || Found.empty())
    return false;
  for (Instruction *I : Found)
    if (auto *Load = dyn_cast<LoadInst>(I))
      loadByPieces(*Load, Align(1));
    else
      storeByPieces(*cast<StoreInst>(I), Align(1));
  return true;
}

bool promoteBytes(Function &F, FunctionAnalysisManager &FAM) {
  bool Changed = false;
  for (AllocaInst *Local : memoryLocals(F))
    Changed |= splitBytes(*Local);
  if (Changed) {
    FAM.invalidate(F, PreservedAnalyses::none());
    promote(F, FAM);
  }
  return Changed;
}

bool inlineOnce(Function &F, FunctionAnalysisManager &FAM, Report &R) {
  bool Changed = false;
  for (CallBase *Call : callsToInline(F)) {
    std::string Place = R.place(*Call), Name = nameOf(*Call);
    if (!inlineCall(*Call))
      continue;
    R.replacedAt(Place, "a call of " + Name + " with a local in memory or a struct", "its body");
    Changed = true;
  }
  if (Changed) {
    FAM.invalidate(F, PreservedAnalyses::none());
    dropHints(F, R);
  }
  return Changed;
}

// Static functions that nothing calls any more.
void dropUnused(Module &M, FunctionAnalysisManager &FAM, Report &R) {
  for (bool Again = true; Again;) {
    Again = false;
    for (Function &F : make_early_inc_range(M))
      if (F.hasLocalLinkage() && F.use_empty() && !F.isDeclaration()) {
        R.replaced(F, "a static function that is inlined at each call", "gone");
        FAM.clear(F, F.getName());
        F.eraseFromParent();
        Again = true;
      }
  }
}

} // namespace

bool promoteLocals(Module &M, ModuleAnalysisManager &MAM, Report &R) {
  auto &FAM = MAM.getResult<FunctionAnalysisManagerModuleProxy>(M).getManager();
  bool Changed = false, Inlined = false;
  for (Function &F : M) {
    SmallVector<std::pair<WeakVH, std::string>, 16> Before;
    for (AllocaInst *A : memoryLocals(F))
      Before.push_back({A, R.place(*A)});
    bool Here = !Before.empty();
    if (Here)
      promote(F, FAM);
    while (!F.isDeclaration() && inlineOnce(F, FAM, R)) { // what was handed on may be a slot now, but read before it is set
      Inlined = Here = true;
      promote(F, FAM);
    }
    Here |= promoteBytes(F, FAM);
    Changed |= Here;
    for (auto &[Handle, Place] : Before)
      if (!Handle)
        R.replacedAt(Place, "a local in memory", "registers");
  }
  if (Inlined)
    dropUnused(M, FAM, R);
  return Changed;
}

} // namespace hkv
