// What is taken of LLVM, in one place: its headers, and the few calls that differ from version 15 to 19.
#pragma once

#include "llvm/ADT/MapVector.h"
#include "llvm/ADT/PostOrderIterator.h"
#include "llvm/ADT/SetVector.h"
#include "llvm/ADT/SmallString.h"
#include "llvm/ADT/StringExtras.h"
#include "llvm/ADT/StringMap.h"
#include "llvm/ADT/StringSet.h"
#include "llvm/Analysis/AssumptionCache.h"
#include "llvm/Analysis/CFG.h"
#include "llvm/Analysis/LoopInfo.h"
#include "llvm/Analysis/OptimizationRemarkEmitter.h"
#include "llvm/Analysis/ScalarEvolution.h"
#include "llvm/Analysis/TargetTransformInfo.h"
#include "llvm/Config/llvm-config.h"
#include "llvm/IR/AssemblyAnnotationWriter.h"
#include "llvm/IR/Constants.h"
#include "llvm/IR/DataLayout.h"
#include "llvm/IR/DebugInfoMetadata.h"
#include "llvm/IR/Dominators.h"
#include "llvm/IR/IRBuilder.h"
#include "llvm/IR/InlineAsm.h"
#include "llvm/IR/InstIterator.h"
#include "llvm/IR/Instructions.h"
#include "llvm/IR/IntrinsicInst.h"
#include "llvm/IR/Module.h"
#include "llvm/IR/Operator.h"
#include "llvm/IR/PatternMatch.h"
#include "llvm/IR/Verifier.h"
#include "llvm/Passes/PassBuilder.h"
#include "llvm/Passes/PassPlugin.h"
#include "llvm/Support/FormattedStream.h"
#include "llvm/Support/MemoryBuffer.h"
#include "llvm/Transforms/Scalar/InstSimplifyPass.h"
#include "llvm/Transforms/Scalar/LowerAtomicPass.h"
#include "llvm/Transforms/Scalar/LowerConstantIntrinsics.h"
#include "llvm/Transforms/Scalar/SROA.h"
#include "llvm/Transforms/Scalar/Scalarizer.h"
#include "llvm/Transforms/Scalar/SimplifyCFG.h"
#include "llvm/Transforms/Utils/Cloning.h"
#include "llvm/Transforms/Utils/LCSSA.h"
#include "llvm/Transforms/Utils/Local.h"
#include "llvm/Transforms/Utils/LoopSimplify.h"
#include "llvm/Transforms/Utils/Mem2Reg.h"
#include "llvm/Transforms/Utils/UnrollLoop.h"

#include <map>
#include <numeric>
#include <optional>
#include <vector>

namespace hkv {

inline llvm::SROAPass sroaPass() {
#if LLVM_VERSION_MAJOR >= 16
  return llvm::SROAPass(llvm::SROAOptions::PreserveCFG);
#else
  return llvm::SROAPass();
#endif
}

// The inliner at one call, without notes about lifetimes.
inline bool inlineCall(llvm::CallBase &Call) {
  llvm::InlineFunctionInfo Info;
#if LLVM_VERSION_MAJOR >= 16
  return llvm::InlineFunction(Call, Info, /*MergeAttributes=*/false, /*CalleeAAR=*/nullptr, /*InsertLifetime=*/false).isSuccess();
#else
  return llvm::InlineFunction(Call, Info, /*CalleeAAR=*/nullptr, /*InsertLifetime=*/false).isSuccess();
#endif
}

// Scalarizer, of loads and stores and of elements at a variable index too.
inline llvm::ScalarizerPass scalarizerPass() {
#if LLVM_VERSION_MAJOR >= 19
  llvm::ScalarizerPassOptions Options;
  Options.ScalarizeLoadStore = true;
  Options.ScalarizeVariableInsertExtract = true;
  return llvm::ScalarizerPass(Options);
#else
  llvm::ScalarizerPass Pass;
  Pass.setScalarizeLoadStore(true);
  Pass.setScalarizeVariableInsertExtract(true);
  return Pass;
#endif
}

// The three-way comparisons, which LLVM has from version 19 on.
inline bool isThreeWay(const llvm::IntrinsicInst &I, bool &Signed) {
#if LLVM_VERSION_MAJOR >= 19
  Signed = I.getIntrinsicID() == llvm::Intrinsic::scmp;
  return Signed || I.getIntrinsicID() == llvm::Intrinsic::ucmp;
#else
  (void)I;
  Signed = false;
  return false;
#endif
}

// Drops the promises of newer versions that the profile has no word for: of a `getelementptr`, `nusw` and `nuw` without `inbounds`.
inline bool dropNewPromises(llvm::Instruction &I) {
#if LLVM_VERSION_MAJOR >= 19
  auto *Address = llvm::dyn_cast<llvm::GetElementPtrInst>(&I);
  if (Address && !Address->isInBounds() && Address->getNoWrapFlags() != llvm::GEPNoWrapFlags::none()) {
    Address->setNoWrapFlags(llvm::GEPNoWrapFlags::none());
    return true;
  }
#else
  (void)I;
#endif
  return false;
}

} // namespace hkv
