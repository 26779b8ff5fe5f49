// Comes in: a function. Goes out: the same with the local arrays that it reads or writes at an index which varies taken apart: a load is a
// choice between the elements, a store one for each of them. That the index is in range, which the access promised, is assumed.
#include "Lower.h"

using namespace llvm;

namespace hkv {

namespace {

constexpr uint64_t MostPlaces = 64;

// An access at a varying offset into a local: all places where it may be.
struct Access {
  Instruction *At;
  Value *Offset; // in bytes, 64 bits
  SmallVector<uint64_t, 16> Places;
};

class ArraySplitter {
public:
  ArraySplitter(AllocaInst &Local, const DataLayout &DL, Report &R) : Local(Local), DL(DL), R(R) {}

  bool run() {
    std::optional<uint64_t> Bytes = sizeOf();
    if (!Bytes || !collect(Local, nullptr, 0) || Found.empty())
      return false;
    for (Access &A : Found)
      if (!findPlaces(A, *Bytes))
        return false;
    for (Access &A : Found)
      split(A);
    return true;
  }

private:
  std::optional<uint64_t> sizeOf() const {
    if (Local.isArrayAllocation() || !Local.getAllocatedType()->isSized())
      return std::nullopt;
    return uint64_t(DL.getTypeAllocSize(Local.getAllocatedType()));
  }

  // All accesses through the address; none of them may hand it on.
  bool collect(Value &Address, Value *Offset, uint64_t Stride) {
    for (User *U : Address.users()) {
      auto *I = cast<Instruction>(U);
      if (isa<DbgInfoIntrinsic>(I))
        continue;
      if (auto *Copy = dyn_cast<MemIntrinsic>(I)) {
        if (Offset || Copy->isVolatile())
          return false;
        continue;
      }
      if (auto *Step = dyn_cast<GetElementPtrInst>(I)) {
        if (!collectStep(*Step, Offset, Stride))
          return false;
        continue;
      }
      if (!isPlain(*I, Address))
        return false;
      if (Offset)
        Found.push_back({I, Offset, {}}), Strides.push_back(Stride);
    }
    return true;
  }

  static bool isPlain(Instruction &I, Value &Address) {
    if (auto *Load = dyn_cast<LoadInst>(&I))
      return Load->isSimple() && Load->getType()->isIntegerTy();
    auto *Store = dyn_cast<StoreInst>(&I);
    return Store && Store->isSimple() && Store->getPointerOperand() == &Address && Store->getValueOperand()->getType()->isIntegerTy();
  }

  // The offset behind a step, as a sum of products. A constant step from the local itself stays as it is.
  bool collectStep(GetElementPtrInst &Step, Value *Before, uint64_t Stride) {
    MapVector<Value *, APInt> Varying;
    APInt Fixed(64, 0);
    if (!Step.collectOffset(DL, 64, Varying, Fixed) || (!Before && Varying.empty()))
      return !Before && Step.hasAllConstantIndices() && collect(Step, nullptr, 0);
    IRBuilder<> B(&Step);
    Value *Sum = ConstantInt::get(B.getInt64Ty(), Fixed);
    if (Before)
      Sum = B.CreateAdd(Before, Sum);
    else
      Sum = B.CreateAdd(Sum, ConstantInt::get(B.getInt64Ty(), baseOffset(Step)));
    for (auto &[Index, Scale] : Varying) {
      Sum = B.CreateAdd(Sum, B.CreateMul(B.CreateSExtOrTrunc(Index, B.getInt64Ty()), ConstantInt::get(B.getInt64Ty(), Scale)));
      Stride = std::gcd(Stride, Scale.abs().getZExtValue());
    }
    if (!Step.isInBounds()) // its sum may go round at 2^64
      Stride = std::gcd(Stride, uint64_t(1) << 62);
    return collect(Step, Sum, Stride);
  }

  // Of constant steps before this one.
  uint64_t baseOffset(GetElementPtrInst &Step) {
    APInt Offset(64, 0);
    Step.getPointerOperand()->stripAndAccumulateConstantOffsets(DL, Offset, /*AllowNonInbounds=*/true);
    return Offset.getZExtValue();
  }

  bool findPlaces(Access &A, uint64_t Bytes) {
    size_t K = size_t(&A - Found.data());
    uint64_t Size = DL.getTypeStoreSize(getLoadStoreType(A.At));
    uint64_t Stride = Strides[K], First = firstPlace(A.Offset, Stride);
    if (Stride == 0)
      return false;
    for (uint64_t Place = First; Place + Size <= Bytes; Place += Stride)
      A.Places.push_back(Place);
    return !A.Places.empty() && A.Places.size() <= MostPlaces;
  }

  // The fixed part of the sum, modulo the stride.
  uint64_t firstPlace(Value *Sum, uint64_t Stride) {
    if (Stride == 0)
      return 0;
    if (auto *C = dyn_cast<ConstantInt>(Sum))
      return uint64_t(C->getValue().srem(int64_t(Stride)) + int64_t(Stride)) % Stride; // it may be below zero
    auto *Add = dyn_cast<BinaryOperator>(Sum);
    if (Add && Add->getOpcode() == Instruction::Add)
      return (firstPlace(Add->getOperand(0), Stride) + firstPlace(Add->getOperand(1), Stride)) % Stride;
    return 0; // a multiple of the stride
  }

  Value *place(IRBuilder<> &B, uint64_t Offset) { return B.CreateConstInBoundsGEP1_64(B.getInt8Ty(), &Local, Offset); }

  void split(Access &A) {
    R.replaced(*A.At, Twine(A.At->getOpcodeName()) + " of a local array at an index that varies", "a choice between " + Twine(A.Places.size()) + " elements");
    fixSources(A.Offset);
    IRBuilder<> B(A.At);
    SmallVector<Value *, 16> Is;
    Value *Any = nullptr;
    for (uint64_t Place : A.Places) {
      Is.push_back(B.CreateICmpEQ(A.Offset, B.getInt64(Place)));
      Any = Any ? B.CreateOr(Any, Is.back()) : Is.back();
    }
    B.CreateAssumption(Any);
    if (auto *Load = dyn_cast<LoadInst>(A.At))
      splitLoad(B, *Load, A, Is);
    else
      splitStore(B, *cast<StoreInst>(A.At), A, Is);
  }

  void splitLoad(IRBuilder<> &B, LoadInst &Load, const Access &A, ArrayRef<Value *> Is) {
    Value *Chosen = nullptr;
    for (size_t K = 0; K < A.Places.size(); ++K) {
      Value *Element = B.CreateAlignedLoad(Load.getType(), place(B, A.Places[K]), Align(1));
      Chosen = Chosen ? B.CreateSelect(Is[K], Element, Chosen) : Element;
    }
    replaceBy(Load, Chosen);
  }

  void splitStore(IRBuilder<> &B, StoreInst &Store, const Access &A, ArrayRef<Value *> Is) {
    Value *New = Store.getValueOperand();
    for (size_t K = 0; K < A.Places.size(); ++K) {
      Value *Old = B.CreateAlignedLoad(New->getType(), place(B, A.Places[K]), Align(1));
      Value *Next = B.CreateSelect(Is[K], New, Old);
      B.CreateAlignedStore(Next, place(B, A.Places[K]), Align(1));
    }
    Store.eraseFromParent();
  }

  AllocaInst &Local;
  const DataLayout &DL;
  Report &R;
  SmallVector<Access, 8> Found;
  SmallVector<uint64_t, 8> Strides;
};

} // namespace

bool splitArrays(Function &F, FunctionAnalysisManager &FAM, Report &R) {
  SmallVector<AllocaInst *, 8> Locals;
  for (Instruction &I : instructions(F))
    if (auto *Local = dyn_cast<AllocaInst>(&I))
      if (Local->getAllocatedType()->isAggregateType())
        Locals.push_back(Local);
  if (Locals.empty())
    return false;
  bool Changed = splitVectors(F, FAM, R); // so that each element is loaded and stored by itself
  for (AllocaInst *Local : Locals)
    Changed |= ArraySplitter(*Local, F.getParent()->getDataLayout(), R).run();
  if (Changed)
    FAM.invalidate(F, PreservedAnalyses::none());
  return Changed;
}

} // namespace hkv
