// Comes in: a function. Goes out: the same with integers of more than 64 bits as words of 64 bits, lowest first, where they are loaded,
// stored, masked, shifted, added and compared, as words of bit-fields are. A function that does more with one, a product say, stays. What
// comes in is fixed (`freeze`), so that several uses of a word see one number.
#include "Lower.h"

using namespace llvm;

namespace hkv {

namespace {

using Words = SmallVector<Value *, 4>;

bool touchesWide(const Instruction &I) {
  return isWideInteger(I.getType()) || any_of(I.operands(), [](const Use &U) { return isWideInteger(U->getType()); });
}

bool canSplit(const Instruction &I) {
  switch (I.getOpcode()) {
  case Instruction::Load:
    return cast<LoadInst>(I).isSimple();
  case Instruction::Store:
    return cast<StoreInst>(I).isSimple();
  case Instruction::And:
  case Instruction::Or:
  case Instruction::Xor:
  case Instruction::Add:
  case Instruction::Sub:
  case Instruction::Shl:
  case Instruction::LShr:
  case Instruction::AShr:
  case Instruction::Trunc:
  case Instruction::ZExt:
  case Instruction::SExt:
  case Instruction::ICmp:
  case Instruction::Select:
  case Instruction::PHI:
  case Instruction::Freeze:
    return true;
  default:
    return isa<DbgInfoIntrinsic>(I);
  }
}

class WideSplitter {
public:
  explicit WideSplitter(Function &F) : F(F), Word(Type::getInt64Ty(F.getContext())) {}

  void run(ArrayRef<Instruction *> All) {
    for (Instruction *I : All)
      if (auto *Phi = dyn_cast<PHINode>(I))
        begin(*Phi);
    ReversePostOrderTraversal<Function *> Order(&F); // a definition before its uses
    for (BasicBlock *Block : Order)
      for (Instruction &I : make_early_inc_range(*Block))
        if (touchesWide(I) && !isa<PHINode>(I) && !isa<DbgInfoIntrinsic>(I))
          split(I);
    for (auto &[Phi, Parts] : Phis)
      end(*Phi, Parts);
    drop();
  }

private:
  static unsigned widthOf(const Value *V) { return V->getType()->getIntegerBitWidth(); }
  static unsigned countOf(unsigned Width) { return (Width + 63) / 64; }

  Value *number(uint64_t N) { return ConstantInt::get(Word, N); }

  // Zeros above the width in the last word.
  void mask(IRBuilder<> &B, Words &Parts, unsigned Width) {
    if (Width % 64 != 0)
      Parts.back() = B.CreateAnd(Parts.back(), number(maskTrailingOnes<uint64_t>(Width % 64)));
  }

  // The words of a number of any width, with zeros above it.
  Words wordsOf(IRBuilder<> &B, Value *V) {
    if (auto *C = dyn_cast<ConstantInt>(V)) {
      Words Parts;
      for (unsigned K = 0; K < countOf(widthOf(V)); ++K)
        Parts.push_back(number(C->getValue().extractBitsAsZExtValue(std::min(64u, widthOf(V) - 64 * K), 64 * K)));
      return Parts;
    }
    if (isa<Constant>(V)) // undef and poison may be 0
      return Words(countOf(widthOf(V)), number(0));
    if (!isWideInteger(V->getType()))
      return {B.CreateZExt(V, Word)};
    return Known.lookup(V);
  }

  void split(Instruction &I) {
    IRBuilder<> B(&I);
    if (auto *Store = dyn_cast<StoreInst>(&I))
      return splitStore(B, *Store);
    Value *One = nullptr; // what comes in place of a result that is not wide
    Words Parts;
    if (auto *Load = dyn_cast<LoadInst>(&I))
      Parts = splitLoad(B, *Load);
    else if (auto *Compare = dyn_cast<ICmpInst>(&I))
      One = compare(B, *Compare);
    else if (isa<TruncInst>(I) && !isWideInteger(I.getType()))
      One = B.CreateTrunc(wordsOf(B, I.getOperand(0))[0], I.getType());
    else
      Parts = compute(B, I);
    if (One) {
      I.replaceAllUsesWith(One);
      for (auto &Entry : Known)
        std::replace(Entry.second.begin(), Entry.second.end(), cast<Value>(&I), One);
    } else
      Known[&I] = Parts;
    Dead.push_back(&I);
  }

  Words compute(IRBuilder<> &B, Instruction &I) {
    unsigned Width = I.getType()->getIntegerBitWidth();
    Words Parts;
    if (auto *Select = dyn_cast<SelectInst>(&I)) {
      Words A = wordsOf(B, Select->getTrueValue()), C = wordsOf(B, Select->getFalseValue());
      for (unsigned K = 0; K < A.size(); ++K)
        Parts.push_back(B.CreateSelect(Select->getCondition(), A[K], C[K]));
      return Parts;
    }
    if (isa<SExtInst>(I)) {
      fixSources(I.getOperand(0));
      return extend(B, I.getOperand(0), Width);
    }
    if (isa<ZExtInst>(I) || isa<TruncInst>(I)) {
      fixSources(I.getOperand(0));
      Parts = wordsOf(B, I.getOperand(0));
      Parts.resize(countOf(Width), number(0));
      mask(B, Parts, Width);
      return Parts;
    }
    if (isa<FreezeInst>(I)) {
      for (Value *Part : wordsOf(B, I.getOperand(0)))
        Parts.push_back(isa<Constant>(Part) ? Part : B.CreateFreeze(Part));
      mask(B, Parts, Width);
      return Parts;
    }
    return binary(B, cast<BinaryOperator>(I), Width);
  }

  Words binary(IRBuilder<> &B, BinaryOperator &I, unsigned Width) {
    if (I.isShift())
      return shift(B, I, Width);
    bool Carries = I.getOpcode() == Instruction::Add || I.getOpcode() == Instruction::Sub;
    Words A = wordsOf(B, I.getOperand(0)), C = wordsOf(B, I.getOperand(1)), Parts;
    Value *Carry = number(0);
    for (unsigned K = 0; K < A.size(); ++K) {
      if (!Carries) {
        Parts.push_back(B.CreateBinOp(I.getOpcode(), A[K], C[K]));
        continue;
      }
      bool Adds = I.getOpcode() == Instruction::Add;
      Value *First = B.CreateBinOp(I.getOpcode(), A[K], C[K]), *Part = B.CreateBinOp(I.getOpcode(), First, Carry);
      Value *Over = Adds ? B.CreateICmpULT(First, A[K]) : B.CreateICmpULT(A[K], C[K]);
      Value *OverAgain = Adds ? B.CreateICmpULT(Part, First) : B.CreateICmpULT(First, Carry);
      Carry = B.CreateZExt(B.CreateOr(Over, OverAgain), Word);
      Parts.push_back(Part);
    }
    mask(B, Parts, Width);
    return Parts;
  }

  // The words with the sign above a width.
  Words extend(IRBuilder<> &B, Value *V, unsigned Width) {
    Words Parts = wordsOf(B, V);
    signTop(B, Parts, widthOf(V));
    Value *Sign = B.CreateAShr(Parts.back(), number(63));
    Parts.resize(countOf(Width), Sign);
    mask(B, Parts, Width);
    return Parts;
  }

  void signTop(IRBuilder<> &B, Words &Parts, unsigned Width) {
    if (unsigned Free = (64 - Width % 64) % 64)
      Parts.back() = B.CreateAShr(B.CreateShl(Parts.back(), number(Free)), number(Free));
  }

  // By a number, in whole words and the rest; by a value, step by step of its bits. The width or more is poison, so any number.
  Words shift(IRBuilder<> &B, BinaryOperator &I, unsigned Width) {
    bool Left = I.getOpcode() == Instruction::Shl;
    Words Parts = I.getOpcode() == Instruction::AShr ? extend(B, I.getOperand(0), 64 * countOf(Width)) : wordsOf(B, I.getOperand(0));
    Value *Fill = I.getOpcode() == Instruction::AShr ? B.CreateAShr(Parts.back(), number(63)) : number(0);
    if (auto *Fixed = dyn_cast<ConstantInt>(I.getOperand(1))) {
      Parts = moved(B, Parts, Fixed->getValue().getLimitedValue(Width - 1), Left, Fill);
    } else {
      Value *By = wordsOf(B, I.getOperand(1))[0];
      for (unsigned Bit = 0; (1u << Bit) < Width; ++Bit) {
        Words Next = moved(B, Parts, 1u << Bit, Left, Fill);
        Value *Set = B.CreateTrunc(B.CreateLShr(By, number(Bit)), B.getInt1Ty());
        for (unsigned K = 0; K < Parts.size(); ++K)
          Parts[K] = B.CreateSelect(Set, Next[K], Parts[K]);
      }
    }
    mask(B, Parts, Width);
    return Parts;
  }

  Words moved(IRBuilder<> &B, const Words &Parts, unsigned By, bool Left, Value *Fill) {
    int Step = int(By / 64) * (Left ? -1 : 1), Count = int(Parts.size());
    unsigned Rest = By % 64;
    auto At = [&](int K) { return K < 0 ? number(0) : K < Count ? Parts[K] : Fill; };
    Words New;
    for (int K = 0; K < Count; ++K) {
      Value *Here = At(K + Step), *Next = At(K + Step + (Left ? -1 : 1));
      if (Rest != 0) {
        Value *Main = Left ? B.CreateShl(Here, number(Rest)) : B.CreateLShr(Here, number(Rest));
        Value *In = Left ? B.CreateLShr(Next, number(64 - Rest)) : B.CreateShl(Next, number(64 - Rest));
        Here = B.CreateOr(Main, In);
      }
      New.push_back(Here);
    }
    return New;
  }

  // From the lowest word on: what decides is the highest word in which they differ.
  Value *compare(IRBuilder<> &B, ICmpInst &I) {
    Words A = wordsOf(B, I.getOperand(0)), C = wordsOf(B, I.getOperand(1));
    if (I.isSigned()) {
      signTop(B, A, widthOf(I.getOperand(0)));
      signTop(B, C, widthOf(I.getOperand(0)));
    }
    Value *Same = nullptr;
    if (I.isEquality()) {
      for (unsigned K = 0; K < A.size(); ++K) {
        Value *Differs = B.CreateXor(A[K], C[K]);
        Same = Same ? B.CreateOr(Same, Differs) : Differs;
      }
      return B.CreateICmp(I.getPredicate(), Same, number(0));
    }
    Value *Holds = B.CreateICmp(I.getUnsignedPredicate(), A[0], C[0]);
    for (unsigned K = 1; K < A.size(); ++K) {
      bool Top = K + 1 == A.size();
      Value *Here = B.CreateICmp(Top ? I.getPredicate() : I.getUnsignedPredicate(), A[K], C[K]);
      Holds = B.CreateSelect(B.CreateICmpEQ(A[K], C[K]), Holds, Here);
    }
    return Holds;
  }

  Words splitLoad(IRBuilder<> &B, LoadInst &Load) {
    unsigned Width = Load.getType()->getIntegerBitWidth();
    Words Parts;
    for (unsigned K = 0; K < countOf(Width); ++K) {
      Type *T = B.getIntNTy(std::min(64u, Width - 64 * K));
      Value *Part = B.CreateAlignedLoad(T, byteAt(B, Load.getPointerOperand(), 8 * K), commonAlignment(Load.getAlign(), 8 * K));
      Parts.push_back(B.CreateZExt(B.CreateFreeze(Part), Word));
    }
    return Parts;
  }

  void splitStore(IRBuilder<> &B, StoreInst &Store) {
    unsigned Width = widthOf(Store.getValueOperand());
    Words Parts = wordsOf(B, Store.getValueOperand());
    for (unsigned K = 0; K < Parts.size(); ++K) {
      Type *T = B.getIntNTy(std::min(64u, Width - 64 * K));
      Value *Part = B.CreateTrunc(Parts[K], T);
      B.CreateAlignedStore(Part, byteAt(B, Store.getPointerOperand(), 8 * K), commonAlignment(Store.getAlign(), 8 * K));
    }
    Store.eraseFromParent();
  }

  void begin(PHINode &Phi) {
    Words Parts;
    for (unsigned K = 0; K < countOf(widthOf(&Phi)); ++K)
      Parts.push_back(PHINode::Create(Word, Phi.getNumIncomingValues(), "", &Phi));
    Known[&Phi] = Parts;
    Phis.push_back({&Phi, Parts});
    Dead.push_back(&Phi);
  }

  void end(PHINode &Phi, const Words &Parts) {
    for (unsigned Arm = 0; Arm < Phi.getNumIncomingValues(); ++Arm) {
      IRBuilder<> B(Phi.getIncomingBlock(Arm)->getTerminator());
      Words From = wordsOf(B, Phi.getIncomingValue(Arm));
      for (unsigned K = 0; K < Parts.size(); ++K)
        cast<PHINode>(Parts[K])->addIncoming(From.empty() ? number(0) : From[K], Phi.getIncomingBlock(Arm)); // none: a block that is not reached
    }
  }

  void drop() {
    for (Instruction *I : Dead)
      I->replaceAllUsesWith(PoisonValue::get(I->getType())); // of one another
    for (Instruction *I : Dead)
      I->eraseFromParent();
  }

  Function &F;
  Type *Word;
  DenseMap<Value *, Words> Known;
  SmallVector<std::pair<PHINode *, Words>, 8> Phis;
  SmallVector<Instruction *, 32> Dead;
};

} // namespace

bool splitWide(Function &F, Report &R) {
  removeUnreachableBlocks(F);
  SmallVector<Instruction *, 32> All;
  for (Instruction &I : instructions(F))
    if (touchesWide(I)) {
      if (!canSplit(I))
        return false;
      All.push_back(&I);
    }
  for (Instruction *I : All)
    R.replaced(*I, Twine(I->getOpcodeName()) + " of more than 64 bits", "words of 64 bits");
  if (!All.empty())
    WideSplitter(F).run(All);
  return !All.empty();
}

} // namespace hkv
