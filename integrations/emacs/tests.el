;;; tests.el --- Tests of colfind.el -*- lexical-binding: t -*-

;;; Code:

(require 'benchmark)
(require 'ert)
(require 'colfind)

(defconst tests-repository (getenv "REPOSITORY"))
(defconst tests-letters (expand-file-name "docs/example/letters.txt" tests-repository))
(defconst tests-cldr colfind-table)
(defconst tests-program (expand-file-name "crates/colfind/out/colfind" tests-repository))

(defmacro tests-with (text &rest body)
  "Do BODY in a buffer with TEXT, at its beginning, with the small table and Isearch by colfind."
  (declare (indent 1))
  `(let ((colfind-table tests-letters) (colfind-strength 1) (colfind-variable 'non-ignorable))
     (with-temp-buffer
       (switch-to-buffer (current-buffer))
       (insert ,text)
       (goto-char (point-min))
       (colfind-isearch-mode 1)
       (unwind-protect (progn ,@body)
         (colfind-isearch-mode 0)))))

(defun tests-keys (&rest keys)
  "Type KEYS, and give what was matched and point."
  (execute-kbd-macro (apply #'vconcat (mapcar #'kbd keys)))
  (list (and isearch-other-end (buffer-substring (min (point) isearch-other-end) (max (point) isearch-other-end))) (point)))

(defun tests-all (search)
  "What SEARCH finds from point on, again and again."
  (let (found)
    (while (funcall search)
      (push (match-string 0) found))
    (nreverse found)))

(ert-deftest colfind-isearch-finds-each-spelling ()
  (tests-with "my résumé, re\u0301sume\u0301 x resume"
    (should (equal (tests-keys "C-s resume RET") '("résumé" 10)))
    (should (equal (tests-keys "C-s C-s RET") '("re\u0301sume\u0301" 20)))
    (should (equal (tests-keys "C-s C-s RET") '("resume" 29)))
    (should (equal (tests-keys "C-r C-r RET") '("resume" 23)))
    (should (equal (tests-keys "C-r C-r RET") '("re\u0301sume\u0301" 12)))
    (should (equal (tests-keys "C-r C-r RET") '("résumé" 4)))))

(ert-deftest colfind-isearch-backward-as-one-types ()
  (tests-with "resume re\u0301sume\u0301 x"
    (goto-char (point-max))
    (should (equal (tests-keys "C-r resume RET") '("re\u0301sume\u0301" 8)))
    (goto-char 12)
    (should (equal (tests-keys "C-r resume RET") '("resume" 1)))))

(ert-deftest colfind-isearch-finds-more-with-a-longer-string ()
  (tests-with "chac x"
    (should (equal (tests-keys "C-s c RET") '("c" 5)))
    (goto-char (point-min))
    (should (equal (tests-keys "C-s c h RET") '("ch" 3))))
  (tests-with "x ch"
    (should (equal (tests-keys "C-s c h RET") '("ch" 5)))))

(ert-deftest colfind-isearch-wraps-and-fails ()
  (tests-with "resume x"
    (goto-char (point-max))
    (should (equal (tests-keys "C-s resume C-s RET") '("resume" 7)))
    (should-not (colfind-search-forward "resume" nil t))
    (should-error (colfind-search-forward "resume") :type 'search-failed)
    (should (= (point) 7))))

(ert-deftest colfind-isearch-of-regexps-and-without-the-mode ()
  (tests-with "résumé resume"
    (should (equal (tests-keys "C-M-s re.ume RET") '("resume" 14)))
    (colfind-isearch-mode 0)
    (goto-char (point-min))
    (should (equal (tests-keys "C-s resume RET") '("resume" 14)))))

(ert-deftest colfind-bounds ()
  (tests-with "resume résumé resume"
    (should-not (colfind-search-forward "resume" 6 t))
    (should (= (colfind-search-forward "resume" 7) 7))
    (should (equal (match-data) '(1 7)))
    (goto-char (point-max))
    (should-not (colfind-search-backward "resume" 16 t))
    (should (= (colfind-search-backward "resume" 15) 15))
    (should (= (colfind-search-backward "resume") 8))
    (save-restriction
      (narrow-to-region 2 14)
      (should (equal (tests-all (lambda () (colfind-search-backward "resume" nil t))) nil))
      (goto-char (point-min))
      (should (equal (tests-all (lambda () (colfind-search-forward "resume" nil t))) '("résumé"))))))

(ert-deftest colfind-options ()
  (tests-with "re-sume resume résumé"
    (setq colfind-strength 2)
    (should (= (colfind-search-forward "résumé") 22))
    (setq colfind-strength 1 colfind-variable 'shifted)
    (should (equal (tests-all (lambda () (colfind-search-backward "resume" nil t))) '("résumé" "resume" "re-sume")))))

(ert-deftest colfind-matches-over-lines ()
  (tests-with "re\nsume x re\nsume"
    (let ((colfind-tailor (make-temp-file "colfind" nil nil "000A ; [*0200.0020.0002]\n")))
      (setq colfind-variable 'shifted)
      (should (equal (tests-all (lambda () (colfind-search-forward "resume" nil t))) '("re\nsume" "re\nsume")))
      (should (equal (tests-all (lambda () (colfind-search-backward "resume" nil t))) '("re\nsume" "re\nsume")))
      (delete-file colfind-tailor))))

(ert-deftest colfind-bytes-that-are-no-characters ()
  (tests-with (concat "resume " (string-to-multibyte "\xff\xe9") " résumé " (string #x110000 #x200000)
                      "re" (string-to-multibyte "\x80") "sume " (string #xd800) " resume")
    (should (equal (tests-all (lambda () (colfind-search-forward "resume" nil t))) '("resume" "résumé" "resume")))
    (should (equal (tests-all (lambda () (colfind-search-backward "resume" nil t))) '("resume" "résumé" "resume"))))
  (tests-with (concat "a" (make-string 70 #x301) " résumé")
    (should (equal (tests-all (lambda () (colfind-search-forward "resume" nil t))) '("résumé"))))
  (tests-with "resume"
    (set-buffer-multibyte nil)
    (should (equal (tests-keys "C-s resume RET") '("resume" 7)))))

(ert-deftest colfind-faults ()
  (tests-with "resume"
    (should (equal (should-error (colfind-search-forward "\u0301") :type 'colfind-error)
                   '(colfind-error "fault 22 at 0: the pattern has nothing that counts at this strength")))
    (let ((colfind-table (make-temp-file "colfind" nil nil "0061 ; [.1C00.0020.0002]\nnonsense\n")))
      (should (equal (should-error (colfind-search-forward "resume") :type 'colfind-error)
                     '(colfind-error "fault 1 at 2: a line of the table file is malformed")))
      (delete-file colfind-table)
      (should-error (colfind-search-forward "resume") :type 'file-missing))
    (should-error (colfind--begin "resume"))
    (should-error (colfind--feed (colfind--table-of) "resume" t) :type 'colfind-error)
    (should-error (colfind--pattern (colfind--table-of) "resume" 4 0) :type 'colfind-error)
    (should-error (colfind--feed (colfind--pattern-of "resume") (make-string 65537 #x10ffff) t))
    (should (= (colfind-search-forward "resume") 7))))

(defun tests-error (file)
  "The error of a search with the table FILE."
  (let ((colfind-table file))
    (cdr (should-error (colfind-search-forward "resume")))))

(ert-deftest colfind-names-of-tables ()
  (let* ((folder (file-name-as-directory (make-temp-file "colfind" t))) (default-directory folder)
         (writer (start-process "writer" nil "sh" "-c" "while sleep 5; do : <> fifo; done"))) ; so that who waits goes on
    (tests-with "résumé"
      (dolist (name '("t`touch pwned`" "a%b" "$HOME" "-n" "[a]*" "a\nb" "ssh:none:x"))
        (copy-file tests-letters (concat folder name))
        (setq colfind-table (concat folder name))
        (goto-char (point-min))
        (should (= (colfind-search-forward "resume") 7)))
      (should (equal (tests-error "/ssh:none:/table") '("Opening input file" "No such file or directory" "/ssh:none:/table")))
      (should (equal (tests-error folder) (list "Is a directory" folder)))
      (call-process "mkfifo" nil nil nil (concat folder "fifo"))
      (call-process "truncate" nil nil nil "-s" "268435457" (concat folder "large"))
      (dolist (file (list (concat folder "fifo") (concat folder "large") "/dev/zero"))
        (should (equal (tests-error file) (list "no file of at most 256 MB" file))))
      (should-not (directory-files folder nil "\\`pwned")))
    (delete-process writer)
    (delete-directory folder t)))

(ert-deftest colfind-strings-are-taken-as-they-are ()
  (dolist (string '("50%s" "a\\(" "[a" "\\`a" "*a" "a`b`" "$a"))
    (tests-with (concat "none " string " x")
      (execute-kbd-macro (vconcat (kbd "C-s") string (kbd "RET")))
      (should (equal (list isearch-other-end (point)) (list 6 (+ 6 (length string)))))
      (goto-char (point-min))
      (should (= (colfind-search-forward string) (+ 6 (length string))))
      (should (equal (cdr (should-error (colfind-search-forward string))) (list string))))))

(ert-deftest colfind-keeps-one-pattern-and-four-tables ()
  (tests-with "resume"
    (let ((first (colfind--pattern-of "resume")))
      (should (eq (colfind--pattern-of "resume") first))
      (colfind--pattern-of "me")
      (should (equal (should-error (colfind--begin first)) (should-error (colfind--feed first "resume" t))))
      (should (= (colfind-search-forward "resume") 7)))
    (let* ((files (mapcar (lambda (_) (make-temp-file "colfind")) (make-list 6 nil))))
      (dolist (colfind-tailor files)
        (goto-char (point-min))
        (should (= (colfind-search-forward "resume") 7)))
      (should (equal (mapcar #'cadar colfind--tables) (seq-take (reverse files) 4)))
      (mapc #'delete-file files))))

(ert-deftest colfind-bytes-that-are-no-characters-in-a-large-buffer ()
  (tests-with (make-string 524288 #x3fffff) ; bytes FF
    (goto-char (point-max))
    (insert "résumé")
    (goto-char (point-min))
    (should (< (benchmark-elapse (should (= (colfind-search-forward "resume") 524295))) 10))))

(ert-deftest colfind-scripts-of-cldr ()
  (skip-unless (file-exists-p tests-cldr))
  (tests-with "Ёлка и ЁЛКА, елка\nภาษาไทย\nविद्यालय\n日本語 RÉSUMÉ"
    (setq colfind-table tests-cldr)
    (should (equal (tests-all (lambda () (colfind-search-forward "елка" nil t))) '("Ёлка" "ЁЛКА" "елка")))
    (should (equal (tests-keys "C-s ไทย RET") '("ไทย" 26)))
    (should (equal (tests-keys "C-s विद्या RET") '("विद्या" 33)))
    (should (equal (tests-keys "C-s resume RET") '("RÉSUMÉ" 46)))
    (should (equal (tests-keys "C-r 本 RET") '("本" 37)))))

(defun tests-chain (pattern text)
  "What the program finds of PATTERN in TEXT, as a chain."
  (let ((file (make-temp-file "colfind" nil nil text)) (coding-system-for-write 'utf-8) (bytes (encode-coding-string text 'utf-8)) found)
    (dolist (line (process-lines-ignore-status tests-program "--table" tests-letters "--strength" "1" "--select" "chain" pattern file))
      (let ((ends (mapcar #'string-to-number (split-string line ":"))))
        (push (decode-coding-string (substring bytes (car ends) (cadr ends)) 'utf-8) found)))
    (delete-file file)
    (nreverse found)))

(ert-deftest colfind-random-texts-beside-the-program ()
  (skip-unless (file-executable-p tests-program))
  (let ((parts ["resume" "résumé" "re" "su" "m" "e" "e\u0301" "\u0301" "\u00ad" " " "-" "ch" "aa" "Я" "\n"])
        (coding-system-for-write 'utf-8))
    (random "82")
    (dolist (pattern '("resume" "e" "aa" "su" "e-" "ch"))
      (let ((text (mapconcat (lambda (_) (aref parts (random (length parts)))) (make-list 400 nil) "")))
        (tests-with text
          (should (equal (tests-all (lambda () (colfind-search-forward pattern nil t))) (tests-chain pattern text))))))))

(ert-deftest colfind-large-buffers ()
  (tests-with ""
    (dotimes (_ 50000)
      (insert "some русский lines of text, and a few words more of them all, and e\n"))
    (insert "résumé")
    (goto-char (point-min))
    (should (colfind-search-forward "resume"))
    (goto-char (point-min))
    (insert "resume\n")
    (goto-char (- (point-max) 6))
    (should (= (colfind-search-backward "resume") 1))))

;;; tests.el ends here
