-- GHC's STM over the pull form of the tasks (include/vacation_body.h):
--
--     benchmark/build built --interface
--     ghc -O1 -threaded -fno-omit-yields -outputdir out -o stm share/vacation/templates/haskell/Stm.hs \
--         -optl-Wl,-rpath,$PWD built/libvacation_body.so
--     ./vacation tasks --tasks 1000 --items 8 > work
--     ./stm +RTS -N2 -RTS < work > log && ./judge history --tasks work < log
--
-- (`&&`, because a run that hung or crashed can end as `legal`.) Without -fno-omit-yields a doomed
-- transaction that does not allocate is never stopped. Each line of the log is written as its call ends,
-- so that a run which crashes or stands still leaves a log, too. With --mistake some words are read
-- without the transaction's knowledge: the judge shall find that. GHC does not show its attempts, so
-- only calls are logged. A call that a crash cuts short has no line, though others may have seen its
-- effect: the log of a crash may be illegal for that alone. Other options: --patience SECONDS, and, to
-- test this file, --crash-at N and --hang-at N.
{-# LANGUAGE ForeignFunctionInterface #-}
{-# LANGUAGE OverloadedStrings #-}
module Main (main) where

import Control.Concurrent
import Control.Concurrent.STM
import Control.Monad
import Data.Array
import qualified Data.ByteString.Char8 as B
import Data.IORef
import qualified Data.Map.Strict as M
import Data.Word
import Foreign
import Foreign.C
import GHC.Clock (getMonotonicTimeNSec)
import GHC.Conc (unsafeIOToSTM)
import System.Environment (getArgs)
import System.IO

-- ---- the library of bodies

data Body

foreign import ccall unsafe "vacation_body_new" newBody :: CUInt -> IO (Ptr Body)
foreign import ccall unsafe "vacation_start" startBody :: Ptr Body -> CString -> IO CInt
foreign import ccall unsafe "vacation_next" nextAccess :: Ptr Body -> Word64 -> IO CInt
foreign import ccall unsafe "vacation_addr" addrOf :: Ptr Body -> IO Word32
foreign import ccall unsafe "vacation_value" valueOf :: Ptr Body -> IO Word64
foreign import ccall unsafe "vacation_reply" replyOf :: Ptr Body -> IO CString
foreign import ccall unsafe "vacation_words" openingWords :: Word64 -> Ptr Word64 -> IO Word64
foreign import ccall "_exit" exitNow :: CInt -> IO ()
foreign import ccall "abort" crash :: IO ()

blocks :: Word64
blocks = 1024

-- ---- the memory under test

type Memory = Array Word32 (TVar Word64)

newMemory :: IO Memory
newMemory = do
  count <- openingWords blocks nullPtr
  allocaArray (fromIntegral count) $ \to -> do
    _ <- openingWords blocks to
    values <- peekArray (fromIntegral count) to
    listArray (0, fromIntegral count - 1) <$> mapM newTVarIO values

readWord :: Options -> Memory -> Word32 -> STM Word64
readWord options memory addr
  | isMistake options && addr `mod` 8 >= 4 = unsafeIOToSTM (readTVarIO (memory ! addr))
  | otherwise = readTVar (memory ! addr)

-- Pauses that are drawn between the accesses of a client, so that clients meet.
type Draws = IORef Word64

pause :: Draws -> IO ()
pause draws = do
  drawn <- readIORef draws
  writeIORef draws $! drawn * 6364136223846793005 + 1442695040888963407
  when (drawn `shiftR` 59 == 0) yield

-- One task as one transaction. (The calls of the library do not wait, and are made anew when the
-- transaction is.)
runTask :: Options -> Memory -> Draws -> Ptr Body -> CString -> STM ()
runTask options memory draws body line = do
  status <- unsafeIOToSTM (startBody body line)
  when (status /= 0) $ error "a line is no task"
  go 0
  where
    go answer = do
      what <- unsafeIOToSTM (pause draws >> nextAccess body answer)
      addr <- unsafeIOToSTM (addrOf body)
      case what of
        0 -> pure ()
        1 -> readWord options memory addr >>= go
        2 -> do
          value <- unsafeIOToSTM (valueOf body)
          writeTVar (memory ! addr) $! value
          go 0
        _ -> retry

-- ---- the clients

data Options = Options
  { isMistake :: Bool
  , patience :: Double
  , crashAt :: Maybe Int
  , hangAt :: Maybe Int
  }

readOptions :: [String] -> Options
readOptions words' = Options
  { isMistake = "--mistake" `elem` words'
  , patience = maybe 60 read (valueAfter "--patience")
  , crashAt = read <$> valueAfter "--crash-at"
  , hangAt = read <$> valueAfter "--hang-at"
  }
  where valueAfter name = lookup name (zip words' (drop 1 words'))

-- The log, and when a call ended last.
data Log = Log (MVar ()) (IORef Word64)

writeLine :: Log -> B.ByteString -> IO ()
writeLine (Log lock ended) line = withMVar lock $ \() -> do
  B.hPut stdout (B.snoc line '\n')
  hFlush stdout
  getMonotonicTimeNSec >>= writeIORef ended

-- Ends the process if no call has ended for too long.
watch :: Options -> Log -> IO ()
watch options (Log _ ended) = forever $ do
  threadDelay 100000
  last' <- readIORef ended
  now <- getMonotonicTimeNSec
  when (now > last' && fromIntegral (now - last') > patience options * 1e9) $ do
    hPutStrLn stderr "stm: no call has ended for too long"
    exitNow 3

-- All tasks of a client; a call is logged as it ends.
runClient :: Options -> Log -> Memory -> Int -> [B.ByteString] -> IO ()
runClient options out memory client tasks = do
  body <- newBody (fromIntegral client)
  draws <- newIORef (fromIntegral client)
  forM_ (zip [0 ..] tasks) $ \(number, line) -> do
    when (client /= 0 && Just number == crashAt options) crash
    when (client /= 0 && Just number == hangAt options) $ threadDelay maxBound
    begin <- getMonotonicTimeNSec
    B.useAsCString line (atomically . runTask options memory draws body)
    end <- getMonotonicTimeNSec
    reply <- replyOf body >>= B.packCString
    let stamps = map (B.pack . show) [fromIntegral client, begin, end]
    writeLine out (B.unwords (stamps ++ [line, "->", reply]))

main :: IO ()
main = do
  options <- readOptions <$> getArgs
  memory <- newMemory
  out <- Log <$> newMVar () <*> (getMonotonicTimeNSec >>= newIORef)
  _ <- forkIO (watch options out)
  lines' <- B.lines <$> B.getContents
  let work = M.map reverse $ M.fromListWith (++)
        [ (maybe 0 fst (B.readInt client), [B.drop 1 rest])
        | line <- lines', let (client, rest) = B.break (== ' ') line ]
  runClient options out memory 0 (M.findWithDefault [] 0 work)
  ends <- forM (M.toList (M.delete 0 work)) $ \(client, tasks) -> do
    end <- newEmptyMVar
    -- (two clients of one capability take turns at their pauses, even in the middle of a transaction)
    _ <- forkOn (client `div` 2) (runClient options out memory client tasks >> putMVar end ())
    pure end
  mapM_ takeMVar ends
