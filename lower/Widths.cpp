// Comes in: a module. Goes out: the same with integers of 8, 16, 32 and 64 bits alone in memory. A variable of another width becomes one of
// the next of these, which has its size and alignment; a load or store of another width becomes those of its bytes and words.
#include "Lower.h"

using namespace llvm;

namespace hkv {

namespace {

bool isOdd(const Type *T) {
  auto *Integer = dyn_cast<IntegerType>(T);
  if (!Integer || Integer->getBitWidth() > 64)
    return false;
  return Integer->getBitWidth() < 8 || !isPowerOf2_32(Integer->getBitWidth());
}

// ---- types

class Types {
public:
  explicit Types(const DataLayout &DL) : DL(DL) {}

  // The type with whole integers in place of odd ones, and words in place of wide ones; the same type where it has none.
  Type *whole(Type *T) {
    if (isOdd(T))
      return IntegerType::get(T->getContext(), 8 * unsigned(DL.getTypeAllocSize(T)));
    if (isWideInteger(T))
      return ArrayType::get(Type::getInt64Ty(T->getContext()), DL.getTypeAllocSize(T) / 8);
    if (auto *Array = dyn_cast<ArrayType>(T))
      return ArrayType::get(whole(Array->getElementType()), Array->getNumElements());
    auto *Struct = dyn_cast<StructType>(T);
    return Struct && !Struct->isOpaque() ? wholeStruct(*Struct) : T;
  }

  Constant *whole(Constant *C) {
    Type *T = whole(C->getType());
    if (T == C->getType())
      return C;
    if (C->isNullValue())
      return Constant::getNullValue(T);
    if (auto *Number = dyn_cast<ConstantInt>(C))
      return wholeNumber(Number->getValue(), T);
    SmallVector<Constant *, 16> Parts;
    unsigned Count = isa<StructType>(T) ? T->getStructNumElements() : unsigned(T->getArrayNumElements());
    for (unsigned K = 0; K < Count; ++K)
      Parts.push_back(whole(C->getAggregateElement(K)));
    if (auto *Struct = dyn_cast<StructType>(T))
      return ConstantStruct::get(Struct, Parts);
    return ConstantArray::get(cast<ArrayType>(T), Parts);
  }

private:
  static Constant *wholeNumber(const APInt &N, Type *T) {
    if (T->isIntegerTy())
      return ConstantInt::get(T, N.getZExtValue());
    APInt Long = N.zext(64 * unsigned(T->getArrayNumElements()));
    return ConstantDataArray::get(T->getContext(), ArrayRef<uint64_t>(Long.getRawData(), Long.getNumWords()));
  }

  // Whether all members stand where they stood: a wide integer may have a greater alignment than its words.
  bool isLaidOutAs(StructType &Old, StructType &New) {
    const StructLayout &A = *DL.getStructLayout(&Old), &B = *DL.getStructLayout(&New);
    for (unsigned K = 0; K < Old.getNumElements(); ++K)
      if (A.getElementOffset(K) != B.getElementOffset(K))
        return false;
    return A.getSizeInBytes() == B.getSizeInBytes();
  }

  Type *wholeStruct(StructType &Old) {
    if (Type *Known = Structs.lookup(&Old))
      return Known;
    SmallVector<Type *, 16> Parts;
    bool Changed = false;
    for (Type *Part : Old.elements()) {
      Parts.push_back(whole(Part));
      Changed |= Parts.back() != Part;
    }
    auto *Literal = StructType::get(Old.getContext(), Parts, Old.isPacked());
    Changed = Changed && isLaidOutAs(Old, *Literal);
    Type *New = Changed ? Literal : &Old;
    if (Changed && !Old.isLiteral()) {
      std::string Name = Old.getName().str();
      Old.setName("");
      New = StructType::create(Old.getContext(), Parts, Name, Old.isPacked());
    }
    return Structs[&Old] = New;
  }

  const DataLayout &DL;
  DenseMap<StructType *, Type *> Structs;
};

// ---- variables

bool widenGlobals(Module &M, Types &Whole, Report &R) {
  bool Changed = false;
  SmallVector<GlobalVariable *, 32> Globals;
  for (GlobalVariable &G : M.globals())
    Globals.push_back(&G);
  for (GlobalVariable *G : Globals) {
    Type *T = Whole.whole(G->getValueType());
    if (T == G->getValueType())
      continue;
    Align Alignment = M.getDataLayout().getPreferredAlign(G);
    auto *New = new GlobalVariable(M, T, G->isConstant(), G->getLinkage(), G->hasInitializer() ? Whole.whole(G->getInitializer()) : nullptr, "", G);
    New->copyAttributesFrom(G);
    New->setAlignment(G->getAlign() ? G->getAlign() : MaybeAlign(Alignment));
    New->copyMetadata(G, 0);
    New->takeName(G);
    R.replaced("the odd integers of " + New->getName(), "whole ones");
    G->replaceAllUsesWith(New);
    G->eraseFromParent();
    Changed = true;
  }
  return Changed;
}

// Constant addresses that step over odd types, by new ones over whole types.
Constant *wholeAddress(Constant *C, Types &Whole) {
  auto *Step = dyn_cast<ConstantExpr>(C);
  auto *Form = dyn_cast<GEPOperator>(C);
  if (!Step || !Form)
    return C;
  Constant *Base = wholeAddress(cast<Constant>(Form->getPointerOperand()), Whole);
  Type *T = Whole.whole(Form->getSourceElementType());
  if (T == Form->getSourceElementType() && Base == Form->getPointerOperand())
    return C;
  SmallVector<Constant *, 4> Indices;
  for (Value *Index : Form->indices())
    Indices.push_back(cast<Constant>(Index));
  return ConstantExpr::getGetElementPtr(T, Base, Indices, Form->isInBounds());
}

bool widenAddresses(Function &F, Types &Whole) {
  bool Changed = false;
  for (Instruction &I : instructions(F)) {
    if (auto *Step = dyn_cast<GetElementPtrInst>(&I)) {
      Type *From = Whole.whole(Step->getSourceElementType());
      Changed |= From != Step->getSourceElementType();
      Step->setSourceElementType(From);
      Step->setResultElementType(Whole.whole(Step->getResultElementType()));
    }
    for (Use &U : I.operands())
      if (auto *C = dyn_cast<Constant>(U.get())) {
        Constant *New = wholeAddress(C, Whole);
        Changed |= New != C;
        U.set(New);
      }
  }
  return Changed;
}

// ---- accesses

// A local that is loaded and stored in this one type may keep it.
bool isOwnSlot(const Value *Address, const Type *T) {
  auto *A = dyn_cast<AllocaInst>(Address);
  return A && A->getAllocatedType() == T && all_of(A->users(), [&](const User *U) {
           if (auto *Load = dyn_cast<LoadInst>(U))
             return Load->getType() == T;
           auto *Store = dyn_cast<StoreInst>(U);
           return Store ? Store->getValueOperand()->getType() == T : isa<DbgInfoIntrinsic>(U);
         });
}

bool splitAccesses(Function &F, Report &R) {
  bool Changed = false;
  for (Instruction &I : make_early_inc_range(instructions(F))) {
    auto *Load = dyn_cast<LoadInst>(&I);
    auto *Store = dyn_cast<StoreInst>(&I);
    if (!(Load && Load->isSimple()) && !(Store && Store->isSimple()))
      continue;
    Type *T = Load ? Load->getType() : Store->getValueOperand()->getType();
    if (!isOdd(T) || isOwnSlot(getLoadStorePointerOperand(&I), T))
      continue;
    R.replaced(I, Twine(I.getOpcodeName()) + " of i" + Twine(T->getIntegerBitWidth()), Load ? "loads of bytes and words" : "stores of bytes and words");
    if (Load)
      loadByPieces(*Load, Load->getAlign());
    else
      storeByPieces(*Store, Store->getAlign());
    Changed = true;
  }
  return Changed;
}

} // namespace

bool widenMemory(Module &M, Report &R) {
  Types Whole(M.getDataLayout());
  bool Changed = widenGlobals(M, Whole, R);
  for (Function &F : M) {
    Changed |= widenAddresses(F, Whole);
    Changed |= splitAccesses(F, R);
  }
  return Changed;
}

} // namespace hkv
