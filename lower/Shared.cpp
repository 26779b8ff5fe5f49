// What several parts need: names, words of memory, and sources of `undef`.
#include "Lower.h"

using namespace llvm;

namespace hkv {

std::string nameOf(const Instruction &I) {
  if (auto *Call = dyn_cast<CallBase>(&I)) {
    if (Call->isInlineAsm())
      return "asm";
    if (Function *Callee = Call->getCalledFunction())
      return Callee->getName().str();
    return "a call through a pointer";
  }
  return I.getOpcodeName();
}

bool isWideInteger(const Type *T) { return T->isIntegerTy() && T->getIntegerBitWidth() > 64; }

Value *byteAt(IRBuilder<> &B, Value *Address, uint64_t Offset) {
  return Offset == 0 ? Address : B.CreateConstInBoundsGEP1_64(B.getInt8Ty(), Address, Offset);
}

SmallVector<Piece, 16> piecesOf(uint64_t Length, Align Alignment) {
  SmallVector<Piece, 16> Pieces;
  for (uint64_t Offset = 0; Offset < Length;) {
    uint64_t Widest = std::min<uint64_t>(8, commonAlignment(Alignment, Offset).value());
    while (Offset + Widest > Length)
      Widest /= 2;
    Pieces.push_back({Offset, unsigned(Widest)});
    Offset += Widest;
  }
  return Pieces;
}

namespace {

bool reaches(const Function &From, const Function &To, SmallPtrSetImpl<const Function *> &Seen) {
  for (const Instruction &I : instructions(From))
    if (auto *Call = dyn_cast<CallBase>(&I))
      if (const Function *Next = Call->getCalledFunction())
        if (Next == &To || (Seen.insert(Next).second && reaches(*Next, To, Seen)))
          return true;
  return false;
}

} // namespace

bool isRecursive(const Function &F) {
  SmallPtrSet<const Function *, 16> Seen;
  return reaches(F, F, Seen);
}

void replaceBy(Instruction &I, Value *V) {
  if (V->getType() == I.getType() && isa<Instruction>(V) && !V->hasName())
    V->takeName(&I);
  I.replaceAllUsesWith(V);
  I.eraseFromParent();
}

namespace {

// Whether a source of values may give `undef`: it does not promise otherwise.
bool mayBeUndef(const Value *V) {
  if (auto *A = dyn_cast<Argument>(V))
    return !A->hasAttribute(Attribute::NoUndef);
  if (auto *Load = dyn_cast<LoadInst>(V))
    return !Load->hasMetadata(LLVMContext::MD_noundef);
  if (isa<IntrinsicInst>(V))
    return false; // as good as its operands
  if (auto *Call = dyn_cast<CallBase>(V))
    return !Call->hasRetAttr(Attribute::NoUndef) && !Call->hasMetadata(LLVMContext::MD_noundef);
  return false;
}

Instruction *behind(Value *V) {
  if (auto *A = dyn_cast<Argument>(V))
    return &*A->getParent()->getEntryBlock().getFirstInsertionPt();
  auto *I = cast<Instruction>(V);
  return I->isTerminator() ? nullptr : I->getNextNode();
}

void fixSource(Value *V) {
  Instruction *Place = behind(V);
  bool IsFixed = V->hasOneUse() && isa<FreezeInst>(*V->user_begin());
  if (IsFixed || !Place)
    return;
  auto *Fixed = new FreezeInst(V, V->getName() + ".fixed", Place);
  if (auto *I = dyn_cast<Instruction>(V))
    Fixed->setDebugLoc(I->getDebugLoc());
  V->replaceUsesWithIf(Fixed, [&](Use &U) { return U.getUser() != Fixed; });
}

} // namespace

// A value is `undef` only where it is computed from a source that is: constants are free of it by then.
void fixSources(Value *V) {
  SmallVector<Value *, 16> Open{V};
  SmallPtrSet<Value *, 16> Seen;
  while (!Open.empty()) {
    Value *Next = Open.pop_back_val();
    if (!Seen.insert(Next).second || isa<FreezeInst>(Next) || isa<Constant>(Next))
      continue;
    if (mayBeUndef(Next)) {
      fixSource(Next);
      continue;
    }
    auto *I = dyn_cast<Instruction>(Next);
    if (!I || isa<LoadInst>(I) || isa<AllocaInst>(I) || (isa<CallBase>(I) && !isa<IntrinsicInst>(I)))
      continue;
    for (Value *Operand : I->operands())
      if (Operand->getType()->isIntegerTy() || Operand->getType()->isAggregateType())
        Open.push_back(Operand);
  }
}

void loadByPieces(LoadInst &Load, Align Alignment) {
  IRBuilder<> B(&Load);
  unsigned Width = Load.getType()->getIntegerBitWidth();
  Type *Wide = B.getIntNTy(std::max<unsigned>(8, PowerOf2Ceil(Width)));
  Value *All = nullptr;
  for (const Piece &W : piecesOf((Width + 7) / 8, Alignment)) {
    Value *Part = B.CreateAlignedLoad(B.getIntNTy(8 * W.Bytes), byteAt(B, Load.getPointerOperand(), W.Offset), commonAlignment(Alignment, W.Offset));
    Part = B.CreateZExt(Part, Wide);
    if (W.Offset != 0)
      Part = B.CreateShl(Part, ConstantInt::get(Wide, 8 * W.Offset));
    All = All ? B.CreateOr(All, Part) : Part;
  }
  replaceBy(Load, B.CreateTrunc(All, Load.getType()));
}

void storeByPieces(StoreInst &Store, Align Alignment) {
  Value *Number = Store.getValueOperand();
  unsigned Width = Number->getType()->getIntegerBitWidth();
  SmallVector<Piece, 16> Words = piecesOf((Width + 7) / 8, Alignment);
  if (Words.size() > 1)
    fixSources(Number);
  IRBuilder<> B(&Store);
  Type *Wide = B.getIntNTy(std::max<unsigned>(8, PowerOf2Ceil(Width)));
  Value *All = B.CreateZExt(Store.getValueOperand(), Wide);
  for (const Piece &W : Words) {
    Value *Part = W.Offset == 0 ? All : B.CreateLShr(All, ConstantInt::get(Wide, 8 * W.Offset));
    Part = B.CreateTrunc(Part, B.getIntNTy(8 * W.Bytes));
    B.CreateAlignedStore(Part, byteAt(B, Store.getPointerOperand(), W.Offset), commonAlignment(Alignment, W.Offset));
  }
  Store.eraseFromParent();
}

} // namespace hkv
