// Comes in: a function. Goes out: the same with memcpy, memmove and memset of a constant length as loads and stores of the widest words
// that the alignments allow. A copy by words is one by bytes wherever no byte holds poison, and no handler that is accepted stores it.
#include "Lower.h"

using namespace llvm;

namespace hkv {

namespace {

constexpr uint64_t Limit = 4096;

// memcpy, memmove or memset: of the intrinsics, or of the C library's functions, which clang names where it has no builtins.
struct Copy {
  Value *To = nullptr;
  Value *From = nullptr; // none: a memset
  Value *Byte = nullptr;
  Value *Length = nullptr;
  bool Overlaps = false; // a memmove
  Align ToAlign, FromAlign;
  bool Returns = false; // the call gives its first argument
};

bool readIntrinsic(const MemIntrinsic &I, Copy &C) {
  if (I.isVolatile() || I.getDestAddressSpace() != 0)
    return false;
  C.To = I.getRawDest();
  C.Length = I.getLength();
  C.ToAlign = I.getDestAlign().valueOrOne();
  if (auto *Set = dyn_cast<MemSetInst>(&I)) {
    C.Byte = Set->getValue();
    return true;
  }
  auto *Transfer = cast<MemTransferInst>(&I);
  if (Transfer->getSourceAddressSpace() != 0)
    return false;
  C.From = Transfer->getRawSource();
  C.FromAlign = Transfer->getSourceAlign().valueOrOne();
  C.Overlaps = isa<MemMoveInst>(I);
  return true;
}

bool readLibraryCall(const CallBase &Call, Copy &C) {
  const Function *Callee = Call.getCalledFunction();
  if (!Callee || !Callee->isDeclaration() || Call.arg_size() != 3 || !Call.getType()->isPointerTy())
    return false;
  bool IsSet = Callee->getName() == "memset";
  if (!IsSet && Callee->getName() != "memcpy" && Callee->getName() != "memmove")
    return false;
  Value *Second = Call.getArgOperand(1);
  if (!Call.getArgOperand(0)->getType()->isPointerTy() || !Call.getArgOperand(2)->getType()->isIntegerTy(64) ||
      (IsSet ? !Second->getType()->isIntegerTy(32) : !Second->getType()->isPointerTy()))
    return false;
  C.To = Call.getArgOperand(0);
  C.Length = Call.getArgOperand(2);
  C.Returns = true;
  C.Overlaps = Callee->getName() == "memmove";
  (IsSet ? C.Byte : C.From) = Second;
  return true;
}

Align knownAlign(Value *Address, Align Stated, const DataLayout &DL) {
  return std::max(Stated, getKnownAlignment(Address, DL));
}

void emitSet(IRBuilder<> &B, const Copy &C, ArrayRef<Piece> Pieces) {
  Value *Byte = C.Byte->getType()->isIntegerTy(8) ? C.Byte : B.CreateTrunc(C.Byte, B.getInt8Ty());
  for (const Piece &P : Pieces) {
    Value *Word = Byte;
    if (P.Bytes > 1) {
      Type *T = B.getIntNTy(8 * P.Bytes);
      Word = B.CreateMul(B.CreateZExt(Byte, T), ConstantInt::get(T, APInt::getSplat(8 * P.Bytes, APInt(8, 1))));
    }
    B.CreateAlignedStore(Word, byteAt(B, C.To, P.Offset), commonAlignment(C.ToAlign, P.Offset));
  }
}

void emitTransfer(IRBuilder<> &B, const Copy &C, ArrayRef<Piece> Pieces) {
  auto Load = [&](const Piece &P) -> Value * {
    return B.CreateAlignedLoad(B.getIntNTy(8 * P.Bytes), byteAt(B, C.From, P.Offset), commonAlignment(C.FromAlign, P.Offset));
  };
  auto Store = [&](const Piece &P, Value *Word) {
    B.CreateAlignedStore(Word, byteAt(B, C.To, P.Offset), commonAlignment(C.ToAlign, P.Offset));
  };
  if (!C.Overlaps) {
    for (const Piece &P : Pieces)
      Store(P, Load(P));
    return;
  }
  SmallVector<Value *, 16> Words;
  for (const Piece &P : Pieces)
    Words.push_back(Load(P));
  for (size_t K = 0; K < Pieces.size(); ++K)
    Store(Pieces[K], Words[K]);
}

bool expand(CallBase &Call, Report &R) {
  Copy C;
  auto *I = dyn_cast<MemIntrinsic>(&Call);
  if (!(I ? readIntrinsic(*I, C) : readLibraryCall(Call, C)))
    return false;
  auto *Length = dyn_cast<ConstantInt>(C.Length);
  if (!Length || Length->getValue().ugt(Limit))
    return false;
  const DataLayout &DL = Call.getModule()->getDataLayout();
  C.ToAlign = knownAlign(C.To, C.ToAlign, DL);
  Align Common = C.ToAlign;
  if (C.From) {
    C.FromAlign = knownAlign(C.From, C.FromAlign, DL);
    Common = std::min(Common, C.FromAlign);
  }
  SmallVector<Piece, 16> Pieces = piecesOf(Length->getZExtValue(), Common);
  R.replaced(Call, nameOf(Call) + " of " + Twine(Length->getZExtValue()) + " bytes",
             Twine(Pieces.size()) + (C.Byte ? " stores" : C.Overlaps ? " loads and then as many stores" : " loads and stores"));
  IRBuilder<> B(&Call);
  if (C.Byte)
    emitSet(B, C, Pieces);
  else
    emitTransfer(B, C, Pieces);
  if (C.Returns)
    Call.replaceAllUsesWith(C.To);
  Call.eraseFromParent();
  return true;
}

} // namespace

bool expandCopies(Function &F, Report &R) {
  bool Changed = false;
  for (Instruction &I : make_early_inc_range(instructions(F)))
    if (auto *Call = dyn_cast<CallBase>(&I))
      Changed |= expand(*Call, R);
  return Changed;
}

} // namespace hkv
