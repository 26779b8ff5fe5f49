// The parts of the pass: a function for each construct, in a file of its name. Each takes a module or a function that LLVM's
// verifier accepts, leaves one, tells the report what it replaced, and answers whether it changed anything. Each replacement refines:
// what the new text does, the old one was allowed to do.
#pragma once

#include "Llvm.h"

namespace hkv {

// The words of the call, as the pipeline's text gives them: hkv-lower<unroll=8;single-processor>.
struct Options {
  unsigned Unroll = 0;
  bool SingleProcessor = false;
};

// Tells on standard error what was replaced and what is left, with the place in the text and, where the text has debug
// information, in the source.
class Report {
public:
  explicit Report(llvm::Module &M) : M(M) {}

  // Notes for each instruction the line on which it stands in the file that was read; forgetting takes the notes off again.
  void noteLines();
  void forgetLines();

  // Where an instruction stands, for what may be gone when it is told.
  std::string place(const llvm::Instruction &I) const;
  void replacedAt(const llvm::Twine &Place, const llvm::Twine &What, const llvm::Twine &By);
  void replaced(const llvm::Instruction &I, const llvm::Twine &What, const llvm::Twine &By);
  void replaced(const llvm::Function &F, const llvm::Twine &What, const llvm::Twine &By);
  void replaced(const llvm::Twine &What, const llvm::Twine &By);
  void left(const llvm::Instruction &I, const llvm::Twine &What, const llvm::Twine &Why);
  void left(const llvm::Function &F, const llvm::Twine &What, const llvm::Twine &Why);
  void left(const llvm::Twine &What, const llvm::Twine &Why);
  void end() const;

private:
  void noteLine(llvm::Instruction &I, uint64_t Line);
  void say(llvm::StringRef Kind, const llvm::Twine &Place, const llvm::Twine &What, const llvm::Twine &How);

  llvm::Module &M;
  llvm::StringSet<> Said;
  unsigned Replaced = 0;
  unsigned Left = 0;
};

// `module asm` that only exports symbols, lists of used symbols, comdats.
bool dropExports(llvm::Module &M, Report &R);

// Calls that say something to the optimizer alone.
bool dropHints(llvm::Function &F, Report &R);

// Volatile and atomic accesses, made plain.
bool makePlain(llvm::Function &F, llvm::FunctionAnalysisManager &FAM, Report &R);

// Locals in memory: inlining of the functions that they are handed to, and SROA.
bool promoteLocals(llvm::Module &M, llvm::ModuleAnalysisManager &MAM, Report &R);
// Local arrays that are read or written at an index which varies.
bool splitArrays(llvm::Function &F, llvm::FunctionAnalysisManager &FAM, Report &R);

// Loops of a constant number of rounds, up to a limit.
bool unrollLoops(llvm::Function &F, llvm::FunctionAnalysisManager &FAM, unsigned Limit, Report &R);

// Vectors, by their elements.
bool splitVectors(llvm::Function &F, llvm::FunctionAnalysisManager &FAM, Report &R);

// Structs as values, by their members.
bool splitAggregates(llvm::Function &F, Report &R);

// memcpy, memmove and memset of a constant length.
bool expandCopies(llvm::Function &F, Report &R);

// `undef` and `poison` as operands and in initialisers.
bool fixUndef(llvm::Module &M, Report &R);

// Rotations, byte and bit orders, counts of bits.
bool expandBits(llvm::Function &F, Report &R);

// Saturating arithmetic, three-way comparisons.
bool expandSaturation(llvm::Function &F, Report &R);

// Integers of more than 64 bits, by words.
bool splitWide(llvm::Function &F, Report &R);

// Integers of other widths than 8, 16, 32 and 64 in memory.
bool widenMemory(llvm::Module &M, Report &R);

// Promises and attributes that the profile has no word for.
bool dropPromises(llvm::Module &M, Report &R);

// What is left outside of the profile, told with its reason.
void tellLeft(llvm::Module &M, Report &R);

// ---- shared

// Fixes what the value is computed from where that may be `undef`, so that all uses of it see one number: a `freeze` behind each
// argument, load or call that does not promise to be defined.
void fixSources(llvm::Value *V);

// The name of a called function, or of an instruction's operation.
std::string nameOf(const llvm::Instruction &I);

// Whether it is an integer of more than 64 bits.
bool isWideInteger(const llvm::Type *T);

// The address so many bytes behind another one, in one variable.
llvm::Value *byteAt(llvm::IRBuilder<> &B, llvm::Value *Address, uint64_t Offset);

// A word of memory, of 1, 2, 4 or 8 bytes, at an offset.
struct Piece {
  uint64_t Offset;
  unsigned Bytes;
};

// So many bytes as the widest words that an alignment of the first one allows.
llvm::SmallVector<Piece, 16> piecesOf(uint64_t Length, llvm::Align Alignment);

// An integer of at most 64 bits loaded or stored as the widest words that the alignment allows.
void loadByPieces(llvm::LoadInst &Load, llvm::Align Alignment);
void storeByPieces(llvm::StoreInst &Store, llvm::Align Alignment);

// Whether calls lead from the function back to it.
bool isRecursive(const llvm::Function &F);

// Replaces an instruction by a value and deletes it.
void replaceBy(llvm::Instruction &I, llvm::Value *V);

} // namespace hkv
