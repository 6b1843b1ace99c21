;;; colfind.el --- Search by Unicode collation -*- lexical-binding: t -*-

;; Package-Requires: ((emacs "27.1"))
;; Keywords: matching, i18n

;;; Commentary:

;; With `colfind-isearch-mode', C-s and C-r find a string as a dictionary compares words: "resume" finds each spelling of the word with
;; accents.  `colfind-search-forward' and `colfind-search-backward' are the same for programs.  The search is that of libcolfind, by the
;; module colfind-module.so.

;;; Code:

(require 'colfind-module)
(require 'seq)

(define-error 'colfind-error "colfind")

(defgroup colfind nil
  "Search by Unicode collation."
  :group 'isearch)

(defcustom colfind-table "/usr/share/unicode/cldr/common/uca/allkeys_CLDR.txt"
  "The table of weights: that of Debian's package unicode-cldr-core."
  :type 'file)

(defcustom colfind-tailor nil
  "A file whose rows replace those of the table or are added, or nil."
  :type '(choice (const nil) file))

(defcustom colfind-strength 1
  "1: only letters count, 2: accents too, 3: case and other variants too."
  :type '(choice (const 1) (const 2) (const 3)))

(defcustom colfind-variable 'non-ignorable
  "Blanks and punctuation count, `non-ignorable', or are ignored, `shifted'."
  :type '(choice (const non-ignorable) (const shifted)))

(defconst colfind--unsettled 1024
  "Ranges may wait in so many bytes before the end of what was searched.
They are those of 31 code points and the longest string of a table at most.")

(defconst colfind--most 65536
  "Characters of a piece, and of a line before a place that are searched.")

(defconst colfind--garbage (* 64 1024 1024)
  "Bytes of pieces that a search leaves behind before they are collected.")

(defconst colfind--most-of-file 256
  "Megabytes of the file of a table.")

(defconst colfind--most-tables 4
  "Tables that are kept, those that were asked for last.")

(defvar colfind--tables nil
  "The tables that are kept, by the names of their files, in front the last one.")

(defvar colfind--latest nil
  "The pattern that was made last, behind what it was made of.
No other is kept, for one string is searched at a time.")

(defun colfind--wrong-file (name)
  "Why NAME, if it is there, is no file for a table; or nil."
  (cond ((file-directory-p name) "Is a directory")
        ((and (file-exists-p name)
              (not (and (file-regular-p name)
                        (<= (file-attribute-size (file-attributes (file-truename name))) (* colfind--most-of-file 1024 1024)))))
         (format "no file of at most %d MB" colfind--most-of-file))))

(defun colfind--file (name)
  "The bytes of the file NAME, or none where NAME is nil.
It is one of this machine, whatever NAME means to others, as to Tramp."
  (if name
      (let* ((file-name-handler-alist nil) (wrong (colfind--wrong-file name)))
        (when wrong
          (signal 'file-error (list wrong name)))
        (with-temp-buffer
          (set-buffer-multibyte nil)
          (insert-file-contents-literally name)
          (decode-coding-string (buffer-string) 'latin-1)))
    ""))

(defun colfind--table-of ()
  "The table of the options, which is read once while it is among the last."
  (let* ((key (list colfind-table colfind-tailor))
         (kept (or (assoc key colfind--tables)
                   (cons key (colfind--table (colfind--file colfind-table) (colfind--file colfind-tailor))))))
    (setq colfind--tables (seq-take (cons kept (delq kept colfind--tables)) colfind--most-tables))
    (cdr kept)))

(defun colfind--pattern-of (string)
  "The pattern of STRING under the options, which is kept until another is made.
Then it is freed at once, for Emacs does not see how much memory it has."
  (let ((key (list string colfind-table colfind-tailor colfind-strength colfind-variable)))
    (unless (equal key (car colfind--latest))
      (let ((pattern (colfind--pattern (colfind--table-of) string colfind-strength (if (eq colfind-variable 'shifted) 1 0)))
            (before colfind--latest))
        (setq colfind--latest (cons key pattern))
        (when before
          (colfind--free (cdr before)))))
    (cdr colfind--latest)))

(defun colfind--as-unicode (text)
  "TEXT with all that Unicode has not, as bytes that are no character, replaced.
In its place stand characters with as many bytes, which are none yet, or are for
what is unknown."
  (mapconcat (lambda (char)
               (cond ((<= char #x10ffff) (char-to-string char))
                     ((<= char #x1fffff) "\U0010ffff")
                     ((<= char #x3fff7f) "\u0378\ufffd")
                     (t "\u0378")))
             text ""))

(defun colfind--cut (place)
  "Where the search for a match at or behind PLACE begins.
That is the newline behind the second line above, or less where lines are long."
  (save-excursion
    (goto-char place)
    (forward-line -1)
    (max (point-min) (1- (point)) (- place colfind--most))))

(defun colfind--ranges (pattern from to)
  "Feed the search for PATTERN what stands from FROM to TO.
The value is a list of the ranges that became known, in bytes, the last first."
  (let ((text (buffer-substring-no-properties from to)) (is-last (= to (point-max))))
    (condition-case nil
        (colfind--feed pattern text is-last)
      (wrong-type-argument (colfind--feed pattern (colfind--as-unicode text) is-last)))))

(defun colfind--places (range from)
  "The ends in the buffer of RANGE, which counts bytes from FROM."
  (let ((bytes (position-bytes from)))
    (cons (byte-to-position (+ bytes (car range))) (byte-to-position (+ bytes (cdr range))))))

(defun colfind--next (pattern limit)
  "The ends of the first match of PATTERN that begins at or behind point.
The text is read up to LIMIT, or little further."
  (let* ((from (colfind--cut (point))) (begin (- (position-bytes (point)) (position-bytes from)))
         (at from) (size 512) (gc-cons-threshold (max gc-cons-threshold colfind--garbage)) found)
    (colfind--begin pattern)
    (while (and (not found) (< at limit))
      (let ((to (min (point-max) (+ at size))))
        (dolist (range (colfind--ranges pattern at to))
          (when (>= (car range) begin)
            (setq found range)))
        (setq at to size (min (* 2 size) colfind--most))))
    (and found (colfind--places found from))))

(defun colfind--previous (pattern limit)
  "The ends of the last match of PATTERN that ends at or before point.
The text is read from LIMIT on, or from little before."
  (let ((end (min (point-max) (+ (point) colfind--unsettled))) (size 512)
        (gc-cons-threshold (max gc-cons-threshold colfind--garbage)) from found)
    (while (and (not found) (or (not from) (> from limit)))
      (setq from (colfind--cut (max (point-min) (- (point) size)))
            size (* 4 size))
      (colfind--begin pattern)
      (let ((most (- (position-bytes (point)) (position-bytes from))) (at from))
        (while (< at end)
          (let ((to (min end (+ at colfind--most))) is-known)
            (dolist (range (colfind--ranges pattern at to))
              (when (and (not is-known) (<= (cdr range) most))
                (setq found range is-known t)))
            (setq at to)))))
    (and found (colfind--places found from))))

(defun colfind--found (places is-in point-of string noerror)
  "Go to POINT-OF the PLACES of a match, if IS-IN: point, or nil.
Without a match STRING is named by an error, unless NOERROR."
  (cond ((and places is-in)
         (set-match-data (list (car places) (cdr places)))
         (goto-char (funcall point-of places)))
        (noerror nil)
        (t (signal 'search-failed (list string)))))

(defun colfind-search-forward (string &optional bound noerror)
  "Search forward for STRING by Unicode collation, as `search-forward' does.
A match ends at or before BOUND.  With NOERROR the value is nil where there is
none."
  (interactive "sColfind: ")
  (let* ((most (or bound (point-max)))
         (places (colfind--next (colfind--pattern-of string) (min (point-max) (+ most colfind--unsettled)))))
    (colfind--found places (and places (<= (cdr places) most)) #'cdr string noerror)))

(defun colfind-search-backward (string &optional bound noerror)
  "Search backward for STRING by Unicode collation, as `search-backward' does.
A match begins at or behind BOUND.  With NOERROR the value is nil where there is
none."
  (interactive "sColfind backward: ")
  (let* ((least (or bound (point-min)))
         (places (colfind--previous (colfind--pattern-of string) least)))
    (colfind--found places (and places (>= (car places) least)) #'car string noerror)))

(defun colfind--skip-marks ()
  "Go behind the combining marks at point."
  (while (memq (get-char-code-property (or (char-after) ?a) 'general-category) '(Mn Mc Me))
    (forward-char)))

;; Isearch takes it that a longer string is found where a shorter one is, if at all, and that each character of it is one of the text.  Here
;; neither holds: "c" is not found in a "ch" that is one letter.  When the string has grown, point is where the match before begins, or
;; backward one character behind its end; highlighting, which is no part of that, has a BOUND.

(defun colfind--isearch-forward (string &optional bound noerror)
  "Search for STRING, with BOUND and NOERROR, as Isearch does.
Where the string has grown, that is from the last C-s on."
  (when (and (not bound) (eql (point) isearch-other-end))
    (goto-char (min (point) isearch-barrier)))
  (or (colfind-search-forward string bound noerror)
      (progn (setq isearch-hidden t) nil))) ; so that it is searched again with a longer string

(defun colfind--isearch-backward (string &optional bound noerror)
  "Search backward for STRING, with BOUND and NOERROR, as Isearch does.
Where the string has grown, the match may end one character further, with the
marks of both."
  (when (and (not bound) isearch-other-end (= (point) (1+ isearch-other-end)))
    (goto-char isearch-other-end)
    (colfind--skip-marks)
    (unless (eobp)
      (forward-char))
    (colfind--skip-marks)
    (goto-char (min (point) isearch-opoint isearch-barrier)))
  (or (colfind-search-backward string bound noerror)
      (progn (setq isearch-hidden t) nil)))

(defun colfind-isearch-search-fun ()
  "The function by which Isearch searches.
It is that of colfind, but for regular expressions, words, and buffers of bytes."
  (cond ((or isearch-regexp isearch-regexp-function (not enable-multibyte-characters)) (isearch-search-fun-default))
        (isearch-forward #'colfind--isearch-forward)
        (t #'colfind--isearch-backward)))

;;;###autoload
(define-minor-mode colfind-isearch-mode
  "Let Isearch find strings by Unicode collation."
  :global t
  (setq-default isearch-search-fun-function
                (if colfind-isearch-mode #'colfind-isearch-search-fun #'isearch-search-fun-default)))

(provide 'colfind)

;;; colfind.el ends here
