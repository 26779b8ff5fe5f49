// Comes in: a function. Goes out: the same with saturating arithmetic and three-way comparisons by comparisons and selects.
#include "Lower.h"

using namespace llvm;

namespace hkv {

namespace {

Value *greatest(Type *T) { return ConstantInt::get(T, APInt::getSignedMaxValue(T->getIntegerBitWidth())); }
Value *least(Type *T) { return ConstantInt::get(T, APInt::getSignedMinValue(T->getIntegerBitWidth())); }

// Below zero the least number, else the greatest.
Value *boundOf(IRBuilder<> &B, Value *A) {
  Type *T = A->getType();
  return B.CreateSelect(B.CreateICmpSLT(A, Constant::getNullValue(T)), least(T), greatest(T));
}

// A signed sum or difference that overflows has the sign that its first operand does not have.
Value *signedSum(IRBuilder<> &B, Intrinsic::ID WithOverflow, Value *A, Value *C) {
  Value *Pair = B.CreateBinaryIntrinsic(WithOverflow, A, C);
  Value *Sum = B.CreateExtractValue(Pair, 0), *Overflow = B.CreateExtractValue(Pair, 1);
  return B.CreateSelect(Overflow, boundOf(B, A), Sum);
}

Value *unsignedSum(IRBuilder<> &B, Value *A, Value *C) {
  Value *Sum = B.CreateAdd(A, C);
  return B.CreateSelect(B.CreateICmpULT(Sum, A), Constant::getAllOnesValue(A->getType()), Sum);
}

Value *unsignedDifference(IRBuilder<> &B, Value *A, Value *C) {
  Value *Below = B.CreateICmpULT(A, C);
  return B.CreateSelect(Below, Constant::getNullValue(A->getType()), B.CreateSub(A, C));
}

// Shifted back it is another number: a bit was lost. An amount of the width or more is poison, as before.
Value *shifted(IRBuilder<> &B, bool Signed, Value *A, Value *C) {
  Value *Moved = B.CreateShl(A, C);
  Value *Back = Signed ? B.CreateAShr(Moved, C) : B.CreateLShr(Moved, C);
  Value *Bound = Signed ? boundOf(B, A) : Constant::getAllOnesValue(A->getType());
  return B.CreateSelect(B.CreateICmpEQ(Back, A), Moved, Bound);
}

Value *compared(IRBuilder<> &B, bool Signed, Value *A, Value *C, Type *T) {
  Value *Greater = Signed ? B.CreateICmpSGT(A, C) : B.CreateICmpUGT(A, C);
  Value *Less = Signed ? B.CreateICmpSLT(A, C) : B.CreateICmpULT(A, C);
  Value *One = B.CreateZExt(Greater, T);
  return B.CreateSub(One, B.CreateZExt(Less, T));
}

Value *expandSaturated(IntrinsicInst &I) {
  auto Operands = [&] { // each is used twice
    fixSources(I.getArgOperand(0));
    fixSources(I.getArgOperand(1));
    return std::make_pair(I.getArgOperand(0), I.getArgOperand(1));
  };
  IRBuilder<> B(&I);
  bool Signed;
  if (isThreeWay(I, Signed)) {
    auto [A, C] = Operands();
    return A->getType()->isIntegerTy() ? compared(B, Signed, A, C, I.getType()) : nullptr;
  }
  switch (I.getIntrinsicID()) {
  case Intrinsic::uadd_sat:
  case Intrinsic::usub_sat:
  case Intrinsic::sadd_sat:
  case Intrinsic::ssub_sat:
  case Intrinsic::ushl_sat:
  case Intrinsic::sshl_sat:
    break;
  default:
    return nullptr;
  }
  auto [A, C] = Operands();
  switch (I.getIntrinsicID()) {
  case Intrinsic::uadd_sat:
    return unsignedSum(B, A, C);
  case Intrinsic::usub_sat:
    return unsignedDifference(B, A, C);
  case Intrinsic::sadd_sat:
    return signedSum(B, Intrinsic::sadd_with_overflow, A, C);
  case Intrinsic::ssub_sat:
    return signedSum(B, Intrinsic::ssub_with_overflow, A, C);
  case Intrinsic::ushl_sat:
    return shifted(B, false, A, C);
  default:
    return shifted(B, true, A, C);
  }
}

} // namespace

bool expandSaturation(Function &F, Report &R) {
  bool Changed = false;
  SmallVector<IntrinsicInst *, 16> Calls;
  for (Instruction &I : instructions(F))
    if (auto *Call = dyn_cast<IntrinsicInst>(&I))
      if (Call->getType()->isIntegerTy() && Call->getType()->getIntegerBitWidth() <= 64)
        Calls.push_back(Call);
  for (IntrinsicInst *Call : Calls)
    if (Value *New = expandSaturated(*Call)) {
      R.replaced(*Call, nameOf(*Call), "comparisons and selects");
      replaceBy(*Call, New);
      Changed = true;
    }
  return Changed;
}

} // namespace hkv
