#!/usr/bin/env python3
"""Prints what runs over fonts of other makers cost, by the shaper of the script: makers.py FOLDER [FONTS].

FOLDER has `faces`, built with runs and with rustybuzz. FONTS is where font files are, /usr/share/fonts if it is left out; those that
aren't there are named and passed over. Instructions a character, plan kept and face opened, HarfBuzz : rustybuzz : here, with the
ratio to HarfBuzz, for runs of 5, 40, 80 and 2,000 characters. Rows are sorted by their worst cell."""
import re, subprocess, sys, tempfile
from pathlib import Path
from texts import KINDS, SCRIPTED

FOLDER, FONTS = sys.argv[1], Path(sys.argv[2] if len(sys.argv) > 2 else "/usr/share/fonts")
SIZES = 5, 40, 80, 2000
ENGINES = {"hbrun": "hb_run", "rbrun": "*::rustybuzz_run*", "scripted": "*run_scripted*"}

# Articles of the Universal Declaration of Human Rights.
ARTICLES = {
    "latin": "All human beings are born free and equal in dignity and rights. They are endowed with "
        "reason and conscience and should act towards one another in a spirit of brotherhood. "
        "Everyone is entitled to all the rights and freedoms, without distinction of any kind: "
        "official affairs, final offers. ",
    "urdu": "تمام انسان آزاد اور حقوق و عزت کے اعتبار سے برابر پیدا ہوئے ہیں۔ انہیں ضمیر اور عقل "
        "ودیعت ہوئی ہے۔ اس لئے انہیں ایک دوسرے کے ساتھ بھائی چارے کا سلوک کرنا چاہئے۔ ہر شخص "
        "ان تمام آزادیوں اور حقوق کا مستحق ہے جو اس اعلان میں بیان کئے گئے ہیں، اور اس حق پر "
        "نسل، رنگ، جنس، زبان، مذہب اور سیاسی تفریق کا یا کسی قسم کے عقیدے، قوم، معاشرے، دولت "
        "یا خاندانی حیثیت وغیرہ کا کوئی اثر نہ پڑے گا۔ ",
    "thai": "มนุษย์ทั้งหลายเกิดมามีอิสระและเสมอภาคกันในเกียรติศักดิ์และสิทธิ "
        "ต่างมีเหตุผลและมโนธรรม และควรปฏิบัติต่อกันด้วยเจตนารมณ์แห่งภราดรภาพ "
        "ทุกคนย่อมมีสิทธิและอิสรภาพทั้งปวงตามที่กำหนดไว้ในปฏิญญานี้ "
        "โดยปราศจากการแบ่งแยกไม่ว่าชนิดใด",
    "lao": "ມະນຸດທຸກຄົນເກີດມາມີກຽດສັກສີ, ສິດທິ, ເສລີພາບແລະຄວາມສະເໝີພາບເທົ່າທຽມກັນ. "
        "ທຸກໆຄົນມີເຫດຜົນແລະຄວາມຄິດຄວາມເຫັນສ່ວນຕົວຂອງໃຜຂອງມັນ",
    "hindi": "सभी मनुष्यों को गौरव और अधिकारों के मामले में जन्मजात स्वतन्त्रता और समानता प्राप्त "
        "है। उन्हें बुद्धि और अन्तरात्मा की देन प्राप्त है और परस्पर उन्हें भाईचारे के भाव से "
        "बर्ताव करना चाहिए। ",
    "bengali": "সমস্ত মানুষ স্বাধীনভাবে সমান মর্যাদা এবং অধিকার নিয়ে জন্মগ্রহণ করে। তাঁদের বিবেক এবং "
        "বুদ্ধি আছে; সুতরাং সকলেরই একে অপরের প্রতি ভ্রাতৃত্বসুলভ মনোভাব নিয়ে আচরণ করা উচিৎ। ",
    "tamil": "மனிதப் பிறிவியினர் சகலரும் சுதந்திரமாகவே பிறக்கின்றனர்; அவர்கள் மதிப்பிலும், "
        "உரிமைகளிலும் சமமானவர்கள், அவர்கள் நியாயத்தையும் மனச்சாட்சியையும் இயற்பண்பாகப் "
        "பெற்றவர்கள். ",
    "malayalam": "മനുഷ്യരെല്ലാവരും തുല്യാവകാശങ്ങളോടും അന്തസ്സോടും സ്വാതന്ത്ര്യത്തോടുംകൂടി "
        "ജനിച്ചിട്ടുള്ളവരാണ്‌. അന്യോന്യം ഭ്രാതൃഭാവത്തോടെ പെരുമാറുവാനാണ്‌ മനുഷ്യന്നു "
        "വിവേകബുദ്ധിയും മനസ്സാക്ഷിയും സിദ്ധമായിരിക്കുന്നത്‌. ",
    "khmer": "មនុស្សទាំងអស់ កើតមកមានសេរីភាព និងសមភាព ក្នុងផ្នែកសេចក្តីថ្លៃថ្នូរនិងសិទ្ធិ។ មនុស្ស "
        "មានវិចារណញ្ញាណនិងសតិសម្បជញ្ញៈជាប់ពីកំណើត ហើយគប្បីប្រព្រឹត្តចំពោះគ្នាទៅវិញទៅមក "
        "ក្នុងស្មារតីភាតរភាពជាបងប្អូន។ ",
    "burmese": "လူတိုင်းသည် တူညီ လွတ်လပ်သော ဂုဏ်သိက္ခာဖြင့် လည်းကောင်း၊ တူညီလွတ်လပ်သော "
        "အခွင့်အရေးများဖြင့် လည်းကောင်း၊ မွေးဖွားလာသူများ ဖြစ်သည်။ ထိုသူတို့၌ ပိုင်းခြား "
        "ဝေဖန်တတ်သော ဉာဏ်နှင့် ကျင့်ဝတ် သိတတ်သော စိတ်တို့ရှိကြ၍ ",
    "tibetan": "འགྲོ་བ་མིའི་རིགས་རྒྱུད་ཡོངས་ལ་སྐྱེས་ཙམ་ཉིད་ནས་ཆེ་མཐོངས་དང༌། "
        "ཐོབ་ཐངགི་རང་དབང་འདྲ་མཉམ་དུ་ཡོད་ལ། "
        "ཁོང་ཚོར་རང་བྱུང་གི་བློ་རྩལ་དང་བསམ་ཚུལ་བཟང་པོ་འདོན་པའི་འོས་བབས་ཀྱང་ཡོད། ",
    "sinhala": "සියලු මනුෂ්‍යයෝ නිදහස්ව උපත ලබා ඇත. ගරුත්වයෙන් හා අයිතිවාසිකම් වලින් සමාන වෙති. "
        "යුක්ති අයුක්ති පිළිබඳ හැඟීමෙන් හා හෘදය සාක්ෂියෙන් යුත් ඔවුනොවුන්වුනට සැළකිය යුත්තේ "
        "සහෝදරත්වය පිළිබඳ හැඟීමෙනි. ",
    "javanese": "ꦱꦧꦼꦤ꧀ꦲꦸꦮꦺꦴꦁꦏꦭꦲꦶꦂꦲꦏꦺꦏꦤ꧀ꦛꦶꦩꦂꦢꦶꦏꦭꦤ꧀ꦢꦂꦧꦺꦩꦂꦠꦧꦠ꧀ꦭꦤ꧀ꦲꦏ꧀ꦲꦏ꧀ꦏꦁꦥꦝ꧈ ",
    "adlam": "𞤋𞤲𞥆𞤢𞤥𞤢 𞤢𞥄𞤣𞤫𞥅𞤶𞤭 𞤬𞤮𞤬 𞤨𞤮𞤼𞤭⹁ 𞤲𞤣𞤭𞤥𞤯𞤭𞤣𞤭 𞤫 𞤶𞤭𞤦𞤭𞤲𞤢𞤲𞥆𞤣𞤫 𞤼𞤮 𞤦𞤢𞤲𞥆𞤺𞤫 𞤸𞤢𞤳𞥆𞤫𞥅𞤶𞤭⹁ ",
}
CODE = "fn is_whole(lookup: &Lookup, at: usize) -> bool { lookup.kind != 3 && at >= 2 || u16_at(at + 1) <= 0x10 } // => "
TEXTS = {**KINDS, **SCRIPTED, **ARTICLES, "code": CODE}

ROWS = {
    "EBGaramond12-Regular.otf": ("latin", "viet-nfd", "greek-nfc"),
    "Amiri-Regular.ttf": ("arabic", "arabic-pointed"),
    "JunicodeTwoBeta-Regular.otf": ("latin",),
    "NotoNastaliqUrdu-Regular.ttf": ("urdu",),
    "NotoNaskhArabic-Regular.ttf": ("arabic", "arabic-pointed"),
    "NotoSansThai-Regular.ttf": ("thai",),
    "NotoSansLao-Regular.ttf": ("lao",),
    "Roboto-Regular.ttf": ("latin", "cyrillic"),
    "FiraCode-Regular.ttf": ("code",),
    "LinLibertine_R.otf": ("latin", "cyrillic"),
    "NotoSans-Regular.ttf": ("latin", "greek-nfc", "viet-nfd"),
    "NotoSansHebrew-Regular.ttf": ("hebrew",),
    "NotoSansDevanagari-Regular.ttf": ("hindi",),
    "NotoSansBengali-Regular.ttf": ("bengali",),
    "NotoSansTamil-Regular.ttf": ("tamil",),
    "NotoSansMalayalam-Regular.ttf": ("malayalam",),
    "NotoSansKhmer-Regular.ttf": ("khmer",),
    "NotoSansMyanmar-Regular.ttf": ("burmese",),
    "NotoSerifTibetan-Regular.ttf": ("tibetan",),
    "NotoSansSinhala-Regular.ttf": ("sinhala",),
    "NotoSansJavanese-Regular.ttf": ("javanese",),
    "NotoSansAdlam-Regular.ttf": ("adlam",),
}


def counted(engine, font, text, times):
    """Instructions of so many runs, and what is printed."""
    words = ["valgrind", "--tool=callgrind", "--callgrind-out-file=/dev/null", f"--toggle-collect={ENGINES[engine]}"]
    done = subprocess.run(words + [f"{FOLDER}/faces", engine, font, text, str(times)], capture_output=True, text=True)
    if done.returncode: raise SystemExit(done.stderr[-2000:])
    return int(re.search(r"Collected : *(\d+)", done.stderr).group(1)), done.stdout


def cost(engine, font, text):
    """Instructions of a run whose plan is kept: the difference of three runs and one."""
    first, second = counted(engine, font, text, 1), counted(engine, font, text, 3)
    return (second[0] - first[0]) / 2, second[1]


def cell(folder, font, kind, size):
    """The cell's text and its ratio. All engines must print the same; rustybuzz may place marks otherwise."""
    text = TEXTS[kind]
    if size <= 20: text = "".join(text.split())
    path = f"{folder}/{kind}-{size}.txt"
    open(path, "w", newline="").write((text * (size // len(text) + 1))[:size])
    theirs, other, ours = (cost(engine, font, path) for engine in ENGINES)
    if theirs[1] != ours[1]: raise SystemExit(f"{font} {kind} {size}: not as HarfBuzz")
    ratio = ours[0] / theirs[0]
    return f"{theirs[0] / size:,.0f} : {other[0] / size:,.0f} : {ours[0] / size:,.0f} ({ratio:.2f})", ratio


files = {path.name: str(path) for path in FONTS.rglob("*.[ot]tf")}
rows = []
with tempfile.TemporaryDirectory() as folder:
    for font, kinds in ROWS.items():
        if font not in files:
            print(f"{font} isn't there", file=sys.stderr)
            continue
        for kind in kinds:
            cells = [cell(folder, files[font], kind, size) for size in SIZES]
            rows.append((max(ratio for _, ratio in cells), font, kind, cells))
print("| font | text | " + " | ".join(f"{size:,}" for size in SIZES) + " |\n|---|---|" + "---|" * len(SIZES))
for _, font, kind, cells in sorted(rows, reverse=True):
    print(f"| {font.split('.')[0]} | {kind} | " + " | ".join(text for text, _ in cells) + " |")
ratios = [ratio for row in rows for _, ratio in row[3]]
print(f"\n{len(ratios)} cells, {sum(r <= 1 for r in ratios)} at most 1.0 and {sum(r <= 1.2 for r in ratios)} at most 1.2 of HarfBuzz.")
