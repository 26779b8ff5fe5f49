// Comes in: a function. Goes out: the same with vectors taken apart into their elements, by LLVM's scalarizer. What that does not do comes
// first: a vector seen as one number, and a number as a vector; and what combines all elements (`llvm.vector.reduce`).
#include "Lower.h"

using namespace llvm;

namespace hkv {

namespace {

bool usesVectors(const Instruction &I) {
  auto IsVector = [](const Type *T) { return isa<FixedVectorType>(T); };
  return IsVector(I.getType()) || any_of(I.operands(), [&](const Use &U) { return IsVector(U->getType()); });
}

// Of little endian machines: element 0 is lowest.
Value *joined(IRBuilder<> &B, Value *Vector, Type *T) {
  auto *Over = cast<FixedVectorType>(Vector->getType());
  unsigned Width = Over->getScalarSizeInBits();
  Value *All = nullptr;
  for (unsigned K = 0; K < Over->getNumElements(); ++K) {
    Value *Element = B.CreateZExt(B.CreateExtractElement(Vector, K), T);
    if (K != 0)
      Element = B.CreateShl(Element, ConstantInt::get(T, K * Width));
    All = All ? B.CreateOr(All, Element) : Element;
  }
  return All;
}

Value *parted(IRBuilder<> &B, Value *Number, FixedVectorType *Over) {
  unsigned Width = Over->getScalarSizeInBits();
  Value *All = PoisonValue::get(Over);
  for (unsigned K = 0; K < Over->getNumElements(); ++K) {
    Value *Shifted = K == 0 ? Number : B.CreateLShr(Number, ConstantInt::get(Number->getType(), K * Width));
    All = B.CreateInsertElement(All, B.CreateTrunc(Shifted, Over->getElementType()), K);
  }
  return All;
}

Value *expandCast(BitCastInst &Cast) {
  Value *From = Cast.getOperand(0);
  auto *FromVector = dyn_cast<FixedVectorType>(From->getType());
  auto *ToVector = dyn_cast<FixedVectorType>(Cast.getType());
  auto HasIntegers = [](Type *T) { return T->isIntOrIntVectorTy() && T->getPrimitiveSizeInBits() <= 64; };
  if ((!FromVector && !ToVector) || !HasIntegers(From->getType()) || !HasIntegers(Cast.getType()))
    return nullptr;
  IRBuilder<> B(&Cast);
  if (FromVector && ToVector && FromVector->getNumElements() == ToVector->getNumElements())
    return nullptr;
  Value *Number = From;
  if (FromVector)
    Number = joined(B, From, B.getIntNTy(FromVector->getPrimitiveSizeInBits()));
  if (!ToVector)
    return Number;
  fixSources(Number);
  return parted(B, FromVector ? Number : Cast.getOperand(0), ToVector);
}

using Combine = function_ref<Value *(IRBuilder<> &, Value *, Value *)>;

Value *reduced(IntrinsicInst &I, Combine Step) {
  IRBuilder<> B(&I);
  Value *Vector = I.getArgOperand(0), *All = nullptr;
  for (unsigned K = 0; K < cast<FixedVectorType>(Vector->getType())->getNumElements(); ++K) {
    Value *Element = B.CreateExtractElement(Vector, K);
    All = All ? Step(B, All, Element) : Element;
  }
  return All;
}

Value *expandReduction(IntrinsicInst &I) {
  auto Binary = [&](Instruction::BinaryOps Op) {
    return reduced(I, [=](IRBuilder<> &B, Value *A, Value *C) { return B.CreateBinOp(Op, A, C); });
  };
  auto Bound = [&](Intrinsic::ID Op) {
    return reduced(I, [=](IRBuilder<> &B, Value *A, Value *C) -> Value * { return B.CreateBinaryIntrinsic(Op, A, C); });
  };
  switch (I.getIntrinsicID()) {
  case Intrinsic::vector_reduce_add:
    return Binary(Instruction::Add);
  case Intrinsic::vector_reduce_mul:
    return Binary(Instruction::Mul);
  case Intrinsic::vector_reduce_and:
    return Binary(Instruction::And);
  case Intrinsic::vector_reduce_or:
    return Binary(Instruction::Or);
  case Intrinsic::vector_reduce_xor:
    return Binary(Instruction::Xor);
  case Intrinsic::vector_reduce_smax:
    return Bound(Intrinsic::smax);
  case Intrinsic::vector_reduce_smin:
    return Bound(Intrinsic::smin);
  case Intrinsic::vector_reduce_umax:
    return Bound(Intrinsic::umax);
  case Intrinsic::vector_reduce_umin:
    return Bound(Intrinsic::umin);
  default:
    return nullptr;
  }
}

bool expandFirst(Function &F) {
  bool Changed = false;
  for (Instruction &I : make_early_inc_range(instructions(F))) {
    Value *New = nullptr;
    if (auto *Cast = dyn_cast<BitCastInst>(&I))
      New = expandCast(*Cast);
    else if (auto *Call = dyn_cast<IntrinsicInst>(&I))
      New = expandReduction(*Call);
    if (New) {
      replaceBy(I, New);
      Changed = true;
    }
  }
  return Changed;
}

void dropDead(Function &F) {
  SmallVector<WeakTrackingVH, 32> Dead;
  for (Instruction &I : instructions(F))
    if (usesVectors(I) && isInstructionTriviallyDead(&I))
      Dead.push_back(&I);
  RecursivelyDeleteTriviallyDeadInstructionsPermissive(Dead);
}

} // namespace

bool splitVectors(Function &F, FunctionAnalysisManager &FAM, Report &R) {
  bool Any = false;
  for (Instruction &I : instructions(F))
    if (usesVectors(I)) {
      R.replaced(I, "a vector (" + Twine(I.getOpcodeName()) + ")", "its elements");
      Any = true;
    }
  if (!Any)
    return false;
  expandFirst(F);
  FAM.invalidate(F, PreservedAnalyses::none());
  FAM.invalidate(F, scalarizerPass().run(F, FAM));
  dropDead(F);
  return true;
}

} // namespace hkv
