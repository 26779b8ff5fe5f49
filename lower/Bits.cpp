// Comes in: a function. Goes out: the same with rotations, orders of bytes and bits, and counts of bits by shifts, masks and selects. An
// operand that is used more than once is fixed first, so that all uses see one number; no shift is by the width or more.
#include "Lower.h"

using namespace llvm;

namespace hkv {

namespace {

// The least power of two of bits, at least 8, that holds the width.
unsigned wholeWidth(unsigned Width) { return std::max<unsigned>(8, PowerOf2Ceil(Width)); }

Value *number(Type *T, uint64_t N) { return ConstantInt::get(T, N); }

// Bits 0 to Bits - 1 of each group of 2 * Bits.
Value *lowGroups(Type *T, unsigned Bits) {
  unsigned Width = T->getIntegerBitWidth();
  return ConstantInt::get(T, APInt::getSplat(Width, APInt::getLowBitsSet(2 * Bits, Bits)));
}

// ---- rotations: fshl A:B by S is the high word of both shifted left by S modulo the width, fshr the low one shifted right

Value *shiftBy(IRBuilder<> &B, Value *High, Value *Low, uint64_t Left, unsigned Width) {
  if (Left == 0)
    return High;
  Type *T = High->getType();
  Value *Top = B.CreateShl(High, number(T, Left));
  return B.CreateOr(Top, B.CreateLShr(Low, number(T, Width - Left)));
}

// The amount below the width, and Width - 1 less the amount.
Value *amount(IRBuilder<> &B, Value *By, unsigned Width) {
  Type *T = By->getType();
  return isPowerOf2_32(Width) ? B.CreateAnd(By, number(T, Width - 1)) : B.CreateURem(By, number(T, Width));
}

Value *expandFunnel(IRBuilder<> &B, IntrinsicInst &I, bool Left) {
  Value *High = I.getArgOperand(0), *Low = I.getArgOperand(1), *By = I.getArgOperand(2);
  unsigned Width = I.getType()->getIntegerBitWidth();
  Type *T = I.getType();
  if (auto *C = dyn_cast<ConstantInt>(By)) {
    uint64_t Amount = C->getValue().urem(Width);
    if (Left)
      return shiftBy(B, High, Low, Amount, Width);
    return Amount == 0 ? Low : shiftBy(B, High, Low, Width - Amount, Width);
  }
  if (Width == 1)
    return Left ? High : Low;
  fixSources(By);
  By = I.getArgOperand(2);
  Value *Amount = amount(B, By, Width), *Rest = B.CreateSub(number(T, Width - 1), Amount);
  // The other word moves by the width less the amount, in two steps, as the amount may be 0.
  Value *Top = Left ? B.CreateShl(High, Amount) : B.CreateShl(B.CreateShl(High, number(T, 1)), Rest);
  Value *Bottom = Left ? B.CreateLShr(B.CreateLShr(Low, number(T, 1)), Rest) : B.CreateLShr(Low, Amount);
  return B.CreateOr(Top, Bottom);
}

// ---- orders

Value *expandByteSwap(IRBuilder<> &B, Value *X) {
  Type *T = X->getType();
  unsigned Width = T->getIntegerBitWidth();
  Value *All = nullptr;
  for (unsigned From = 0; From < Width; From += 8) {
    unsigned To = Width - 8 - From;
    Value *Moved = To > From ? B.CreateShl(X, number(T, To - From)) : B.CreateLShr(X, number(T, From - To));
    Value *Byte = B.CreateAnd(Moved, ConstantInt::get(T, APInt::getBitsSet(Width, To, To + 8)));
    All = All ? B.CreateOr(All, Byte) : Byte;
  }
  return All;
}

// Neighbours change places: bits, pairs, fours, up to halves.
Value *reverseWhole(IRBuilder<> &B, Value *X) {
  Type *T = X->getType();
  for (unsigned Bits = 1; Bits < T->getIntegerBitWidth(); Bits *= 2) {
    Value *Mask = lowGroups(T, Bits), *By = number(T, Bits);
    Value *Up = B.CreateShl(B.CreateAnd(X, Mask), By);
    X = B.CreateOr(Up, B.CreateAnd(B.CreateLShr(X, By), Mask));
  }
  return X;
}

Value *expandBitReverse(IRBuilder<> &B, Value *X) {
  unsigned Width = X->getType()->getIntegerBitWidth();
  Type *Whole = B.getIntNTy(wholeWidth(Width));
  Value *Reversed = reverseWhole(B, B.CreateZExtOrTrunc(X, Whole));
  if (Whole == X->getType())
    return Reversed;
  return B.CreateTrunc(B.CreateLShr(Reversed, number(Whole, wholeWidth(Width) - Width)), X->getType());
}

// ---- counts

// Sums of neighbouring groups: of bits, of pairs, of fours, ..
Value *expandPopulation(IRBuilder<> &B, Value *X) {
  Type *T = X->getType(), *Whole = B.getIntNTy(wholeWidth(T->getIntegerBitWidth()));
  X = B.CreateZExtOrTrunc(X, Whole);
  for (unsigned Bits = 1; Bits < Whole->getIntegerBitWidth(); Bits *= 2) {
    Value *Mask = lowGroups(Whole, Bits);
    Value *Low = B.CreateAnd(X, Mask);
    X = B.CreateAdd(Low, B.CreateAnd(B.CreateLShr(X, number(Whole, Bits)), Mask));
  }
  return B.CreateZExtOrTrunc(X, T);
}

// Halves the word again and again: where the half that counts is zero, its length is added and the other half comes in its place. The
// number is the count where a bit is set.
Value *zerosBeforeBit(IRBuilder<> &B, Value *X, bool Leading) {
  Type *T = X->getType();
  unsigned Width = T->getIntegerBitWidth();
  Value *Count = number(T, 0);
  for (unsigned Half = Width / 2; Half != 0; Half /= 2) {
    Value *Counted = Leading ? B.CreateLShr(X, number(T, Width - Half)) : B.CreateAnd(X, ConstantInt::get(T, APInt::getLowBitsSet(Width, Half)));
    Value *IsZero = B.CreateICmpEQ(Counted, number(T, 0));
    Count = B.CreateOr(Count, B.CreateSelect(IsZero, number(T, Half), number(T, 0)));
    Value *Other = Leading ? B.CreateShl(X, number(T, Half)) : B.CreateLShr(X, number(T, Half));
    X = B.CreateSelect(IsZero, Other, X);
  }
  return Count;
}

// Of zero it is the width, or poison where the flag says so.
Value *expandZeros(IRBuilder<> &B, IntrinsicInst &I, bool Leading) {
  Value *X = I.getArgOperand(0);
  Type *T = I.getType(), *Whole = B.getIntNTy(wholeWidth(T->getIntegerBitWidth()));
  Value *IsZero = B.CreateICmpEQ(X, number(T, 0));
  Value *Wide = B.CreateZExtOrTrunc(X, Whole);
  if (Leading && Whole != T) // the word stands at the top
    Wide = B.CreateShl(Wide, number(Whole, Whole->getIntegerBitWidth() - T->getIntegerBitWidth()));
  Value *Count = B.CreateZExtOrTrunc(zerosBeforeBit(B, Wide, Leading), T);
  Value *OfZero = cast<ConstantInt>(I.getArgOperand(1))->isOne() ? cast<Value>(PoisonValue::get(T)) : number(T, T->getIntegerBitWidth());
  return B.CreateSelect(IsZero, OfZero, Count);
}

Value *expandBit(IntrinsicInst &I) {
  IRBuilder<> B(&I);
  auto Operand = [&] {
    fixSources(I.getArgOperand(0));
    return I.getArgOperand(0);
  };
  switch (I.getIntrinsicID()) {
  case Intrinsic::fshl:
  case Intrinsic::fshr:
    return expandFunnel(B, I, I.getIntrinsicID() == Intrinsic::fshl);
  case Intrinsic::bswap:
    return expandByteSwap(B, Operand());
  case Intrinsic::bitreverse:
    return expandBitReverse(B, Operand());
  case Intrinsic::ctpop:
    return expandPopulation(B, Operand());
  case Intrinsic::ctlz:
  case Intrinsic::cttz:
    Operand();
    return expandZeros(B, I, I.getIntrinsicID() == Intrinsic::ctlz);
  default:
    return nullptr;
  }
}

} // namespace

bool expandBits(Function &F, Report &R) {
  bool Changed = false;
  SmallVector<IntrinsicInst *, 16> Calls;
  for (Instruction &I : instructions(F))
    if (auto *Call = dyn_cast<IntrinsicInst>(&I))
      if (Call->getType()->isIntegerTy() && Call->getType()->getIntegerBitWidth() <= 64)
        Calls.push_back(Call);
  for (IntrinsicInst *Call : Calls)
    if (Value *New = expandBit(*Call)) {
      R.replaced(*Call, nameOf(*Call), "shifts, masks and selects");
      replaceBy(*Call, New);
      Changed = true;
    }
  return Changed;
}

} // namespace hkv
